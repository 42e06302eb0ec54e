//! Well-formed tables of any size, laid out as routers print them.

use crate::Random;
use std::io::Write;

/// The lines above a table of IPv4 prefixes, the column header with them.
pub const HEADER: &str = "BGP table version is 7, local router ID is 192.0.2.254, vrf id 0
Default local pref 100, local AS 64500
Status codes:  s suppressed, d damped, h history, * valid, > best, = multipath,
               i internal, r RIB-failure, S Stale, R Removed
Origin codes:  i - IGP, e - EGP, ? - incomplete

   Network          Next Hop            Metric LocPrf Weight Path
";

/// A table of at least `bytes` bytes: prefixes with one to four routes each, now and then an IPv6 prefix on a line of its own.
pub fn table(random: &mut Random, bytes: usize) -> Vec<u8> {
    let mut out = Vec::with_capacity(bytes + 1024);
    out.extend(HEADER.as_bytes());
    let mut path = String::new();
    while out.len() < bytes {
        let wide = random.one_in(8);
        let prefix = if wide { prefix_v6(random) } else { prefix_v4(random) };
        let wrapped = prefix.len() > 17;
        if wrapped {
            writeln!(out, "*> {prefix}").expect("a Vec takes every write");
        }
        for route in 0..1 + random.below(4) {
            let status = if route == 0 { "*>" } else { "* " };
            let network = if route == 0 && !wrapped { prefix.as_str() } else { "" };
            let next_hop =
                if wide { format!("2001:db8::{:x}", random.below(4096)) } else { format!("192.0.2.{}", random.below(256)) };
            let metric = if random.one_in(3) { random.below(500).to_string() } else { String::new() };
            let local_pref = if random.one_in(3) { (100 + random.below(200)).to_string() } else { String::new() };
            path_into(random, &mut path);
            writeln!(out, "{status} {network:<17}{next_hop:<20}{metric:>6} {local_pref:>6} {:>6} {path}", 0)
                .expect("a Vec takes every write");
        }
    }
    out
}

fn prefix_v4(random: &mut Random) -> String {
    let len = 8 + random.below(17);
    let addr = (random.word() as u32) & (u32::MAX << (32 - len));
    format!("{}/{len}", std::net::Ipv4Addr::from(addr))
}

fn prefix_v6(random: &mut Random) -> String {
    let len = 20 + random.below(45);
    let addr = (u128::from(random.word()) << 64 | 0x2001 << 112) & (u128::MAX << (128 - len));
    format!("{}/{len}", std::net::Ipv6Addr::from(addr))
}

/// Two to seven AS numbers and the origin's letter.
fn path_into(random: &mut Random, path: &mut String) {
    path.clear();
    for _ in 0..2 + random.below(6) {
        let asn = if random.one_in(4) { 131_072 + random.below(300_000) } else { 1 + random.below(64_495) };
        path.push_str(&format!("{asn} "));
    }
    path.push(random.pick(&['i', 'i', 'i', '?', 'e']));
}
