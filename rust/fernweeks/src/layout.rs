//! The element that 176 bytes hold: 22 words of 8 bytes, the lowest byte first (`docs/LAYOUT.md`).

use crate::{Asn, Element, Origin, Prefix, ELEMENT_LEN};
use std::net::{IpAddr, Ipv4Addr, Ipv6Addr};

struct Words<'a>(&'a [u8; ELEMENT_LEN]);

impl Words<'_> {
    fn word(&self, slot: usize) -> u64 {
        let mut bytes = [0; 8];
        bytes.copy_from_slice(&self.0[8 * slot..8 * slot + 8]);
        u64::from_le_bytes(bytes)
    }

    fn number(&self, slot: usize) -> u32 {
        self.word(slot) as u32
    }

    /// Kind (0 IPv4, 1 IPv6), upper half, lower half.
    fn address(&self, slot: usize) -> IpAddr {
        if self.word(slot) == 0 {
            IpAddr::V4(Ipv4Addr::from(self.number(slot + 2)))
        } else {
            let (upper, lower) = (self.word(slot + 1), self.word(slot + 2));
            IpAddr::V6(Ipv6Addr::from(u128::from(upper) << 64 | u128::from(lower)))
        }
    }

    /// 1 and a value, or 0 where it is missing.
    fn optional(&self, slot: usize) -> Option<u32> {
        (self.word(slot) != 0).then(|| self.number(slot + 1))
    }
}

pub(crate) fn element(bytes: &[u8; ELEMENT_LEN]) -> Element {
    let w = Words(bytes);
    Element {
        announce: w.word(0) != 0,
        timestamp: f64::from_bits(w.word(1)),
        peer_ip: w.address(2),
        peer_asn: Asn(w.number(5)),
        prefix: Prefix { addr: w.address(6), len: w.word(9) as u8 },
        next_hop: w.address(10),
        count: w.word(13) as usize,
        origin_asn: w.optional(14).map(Asn),
        origin: w.optional(16).map(|code| match code {
            0 => Origin::Igp,
            1 => Origin::Egp,
            _ => Origin::Incomplete,
        }),
        local_pref: w.optional(18),
        metric: w.optional(20),
    }
}
