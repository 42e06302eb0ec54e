//! `docs/LAYOUT.md`, byte by byte.

use crate::checked::{lent, places};
use fernweeks::calls;
use listings::EXAMPLE;

/// The bytes of a table whose lines are an offset and eight bytes; the first offset is `from`.
fn table(from: usize, text: &str) -> Vec<u8> {
    let mut bytes = Vec::new();
    for line in text.lines() {
        let mut words = line.split('#').next().unwrap_or("").split_whitespace();
        let Some(offset) = words.next() else { continue };
        assert_eq!(offset.parse(), Ok(from + bytes.len()), "{line}");
        bytes.extend(words.map(|byte| u8::from_str_radix(byte, 16).expect("a byte")));
    }
    bytes
}

#[test]
fn of_the_example() {
    let (mut state, mut asns, mut element) = (lent(128), places(2), lent(176));
    assert_eq!(calls::open(EXAMPLE.as_bytes(), 1709251200.0, &mut state), 0);
    let opened = table(
        0,
        "
          0  14 00 00 00 00 00 00 00  # Next Hop at 20
          8  28 00 00 00 00 00 00 00  # Metric at 40
         16  2f 00 00 00 00 00 00 00  # LocPrf at 47
         24  36 00 00 00 00 00 00 00  # Weight at 54
         32  3d 00 00 00 00 00 00 00  # Path at 61
         40  00 00 00 00 00 00 00 00  # peer: IPv4
         48  00 00 00 00 00 00 00 00
         56  fe 02 00 c0 00 00 00 00  # 192.0.2.254
         64  f4 fb 00 00 00 00 00 00  # peer AS 64500
         72  00 00 00 a0 46 78 d9 41  # timestamp 1709251200
         80  00 00 00 00 00 00 00 00  # nothing is remembered
         88  00 00 00 00 00 00 00 00
         96  00 00 00 00 00 00 00 00
        104  00 00 00 00 00 00 00 00
        112  00 00 00 00 00 00 00 00
        120  aa 00 00 00 00 00 00 00  # position 170
        ",
    );
    assert_eq!(state, opened);

    assert_eq!(calls::next(&mut state, EXAMPLE.as_bytes(), &mut asns, &mut element), 0);
    let behind = table(
        80,
        "
         80  02 00 00 00 00 00 00 00  # a prefix is remembered
         88  00 00 00 00 00 00 00 00  # IPv4
         96  00 00 00 00 00 00 00 00
        104  00 64 33 c6 00 00 00 00  # 198.51.100.0
        112  18 00 00 00 00 00 00 00  # length 24
        120  f5 00 00 00 00 00 00 00  # position 245
        ",
    );
    assert_eq!(state, [&opened[..80], &behind].concat());
    assert_eq!(asns, [64501, 64502]);
    let first = table(
        0,
        "
          0  01 00 00 00 00 00 00 00  # announce
          8  00 00 00 a0 46 78 d9 41  # timestamp 1709251200
         16  00 00 00 00 00 00 00 00  # peer: IPv4
         24  00 00 00 00 00 00 00 00
         32  fe 02 00 c0 00 00 00 00  # 192.0.2.254
         40  f4 fb 00 00 00 00 00 00  # peer AS 64500
         48  00 00 00 00 00 00 00 00  # prefix: IPv4
         56  00 00 00 00 00 00 00 00
         64  00 64 33 c6 00 00 00 00  # 198.51.100.0
         72  18 00 00 00 00 00 00 00  # length 24
         80  00 00 00 00 00 00 00 00  # next hop: IPv4
         88  00 00 00 00 00 00 00 00
         96  01 02 00 c0 00 00 00 00  # 192.0.2.1
        104  02 00 00 00 00 00 00 00  # two AS numbers
        112  01 00 00 00 00 00 00 00  # origin AS: known
        120  f6 fb 00 00 00 00 00 00  # 64502
        128  01 00 00 00 00 00 00 00  # origin: known
        136  00 00 00 00 00 00 00 00  # IGP
        144  00 00 00 00 00 00 00 00  # local preference: missing
        152  00 00 00 00 00 00 00 00
        160  01 00 00 00 00 00 00 00  # metric: known
        168  00 00 00 00 00 00 00 00  # 0
        ",
    );
    assert_eq!(element, first);

    assert_eq!(calls::next(&mut state, EXAMPLE.as_bytes(), &mut asns, &mut element), 0);
    assert_eq!(state, [&opened[..80], &behind[..40], &table(120, "120  40 01 00 00 00 00 00 00  # position 320")].concat());
    assert_eq!(asns, [64503, 64502]);
    let second = table(
        96,
        "
         96  02 02 00 c0 00 00 00 00  # 192.0.2.2
        104  02 00 00 00 00 00 00 00  # two AS numbers
        112  01 00 00 00 00 00 00 00  # origin AS: known
        120  f6 fb 00 00 00 00 00 00  # 64502
        128  01 00 00 00 00 00 00 00  # origin: known
        136  00 00 00 00 00 00 00 00  # IGP
        144  01 00 00 00 00 00 00 00  # local preference: known
        152  96 00 00 00 00 00 00 00  # 150
        160  00 00 00 00 00 00 00 00  # metric: missing
        168  00 00 00 00 00 00 00 00
        ",
    );
    assert_eq!(element, [&first[..96], &second].concat());
}

#[test]
fn of_a_table_of_ipv6_prefixes() {
    let text = "BGP table version is 7, local router ID is 2001:db8::7, vrf id 0
   Network                        Next Hop                   Metric LocPrf Weight Path
*> 2001:db8:1:2:3:4:5:6/128       fe80::102:304                                 0 ?
*> 2001:db8::/129                 fe80::1                                       0 1 e
";
    let (mut state, mut asns, mut element) = (lent(128), places(1), lent(176));
    assert_eq!(calls::open(text.as_bytes(), -1.0, &mut state), 0);
    assert_eq!(calls::next(&mut state, text.as_bytes(), &mut asns, &mut element), 0);
    let here = table(
        0,
        "
          0  22 00 00 00 00 00 00 00  # Next Hop at 34
          8  3d 00 00 00 00 00 00 00  # Metric at 61
         16  44 00 00 00 00 00 00 00  # LocPrf at 68
         24  4b 00 00 00 00 00 00 00  # Weight at 75
         32  52 00 00 00 00 00 00 00  # Path at 82
         40  01 00 00 00 00 00 00 00  # peer: IPv6
         48  00 00 00 00 b8 0d 01 20  # 2001:db8::7, upper half
         56  07 00 00 00 00 00 00 00  # lower half
         64  00 00 00 00 00 00 00 00  # peer AS 0
         72  00 00 00 00 00 00 f0 bf  # timestamp -1
         80  02 00 00 00 00 00 00 00  # a prefix is remembered
         88  01 00 00 00 00 00 00 00  # IPv6
         96  02 00 01 00 b8 0d 01 20  # 2001:db8:1:2:3:4:5:6, upper half
        104  06 00 05 00 04 00 03 00  # lower half
        112  80 00 00 00 00 00 00 00  # length 128
        120  ec 00 00 00 00 00 00 00  # position 236
        ",
    );
    assert_eq!(state, here);
    let only = table(
        0,
        "
          0  01 00 00 00 00 00 00 00  # announce
          8  00 00 00 00 00 00 f0 bf  # timestamp -1
         16  01 00 00 00 00 00 00 00  # peer: IPv6
         24  00 00 00 00 b8 0d 01 20
         32  07 00 00 00 00 00 00 00
         40  00 00 00 00 00 00 00 00  # peer AS 0
         48  01 00 00 00 00 00 00 00  # prefix: IPv6
         56  02 00 01 00 b8 0d 01 20
         64  06 00 05 00 04 00 03 00
         72  80 00 00 00 00 00 00 00  # length 128
         80  01 00 00 00 00 00 00 00  # next hop: IPv6
         88  00 00 00 00 00 00 80 fe  # fe80::102:304
         96  04 03 02 01 00 00 00 00
        104  00 00 00 00 00 00 00 00  # no AS number
        112  00 00 00 00 00 00 00 00  # origin AS: missing
        120  00 00 00 00 00 00 00 00
        128  01 00 00 00 00 00 00 00  # origin: known
        136  02 00 00 00 00 00 00 00  # INCOMPLETE
        144  00 00 00 00 00 00 00 00  # local preference: missing
        152  00 00 00 00 00 00 00 00
        160  00 00 00 00 00 00 00 00  # metric: missing
        168  00 00 00 00 00 00 00 00
        ",
    );
    assert_eq!(element, only);

    // the second prefix is invalid text: it is remembered as that, and yields nothing
    assert_eq!(calls::next(&mut state, text.as_bytes(), &mut asns, &mut element), 255);
    let end = table(
        80,
        "
         80  01 00 00 00 00 00 00 00  # invalid text is remembered
         88  00 00 00 00 00 00 00 00
         96  00 00 00 00 00 00 00 00
        104  00 00 00 00 00 00 00 00
        112  00 00 00 00 00 00 00 00
        120  42 01 00 00 00 00 00 00  # position 322
        ",
    );
    assert_eq!(state, [&here[..80], &end].concat());
}
