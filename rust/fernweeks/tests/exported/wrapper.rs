//! The wrapper's own types, its refusals, and its parts.

use fernweeks::{detect, Asn, Element, Next, NextRefusal, OpenRefusal, Origin, Parts, Prefix, State, HEADER_LINES};
use listings::{table, Random, EXAMPLE};
use std::io::{self, Read};

fn elements_of(text: &[u8]) -> Vec<(Element, Vec<Asn>)> {
    let mut asns = [Asn(0); 64];
    let mut state = State::open(text, 60.0).expect("the table opens");
    let mut all = Vec::new();
    while let Next::Element(element) = state.next(text, &mut asns).expect("the table reads") {
        all.push((element, asns[..element.count].to_vec()));
    }
    all
}

#[test]
fn elements_of_the_example() {
    assert!(detect(EXAMPLE.as_bytes()) && !detect(b"BGP"));
    let first = Element {
        announce: true,
        timestamp: 60.0,
        peer_ip: [192, 0, 2, 254].into(),
        peer_asn: Asn(64500),
        prefix: Prefix { addr: [198, 51, 100, 0].into(), len: 24 },
        next_hop: [192, 0, 2, 1].into(),
        count: 2,
        origin_asn: Some(Asn(64502)),
        origin: Some(Origin::Igp),
        local_pref: None,
        metric: Some(0),
    };
    let second = Element { next_hop: [192, 0, 2, 2].into(), local_pref: Some(150), metric: None, ..first };
    let expected = [(first, vec![Asn(64501), Asn(64502)]), (second, vec![Asn(64503), Asn(64502)])];
    assert_eq!(elements_of(EXAMPLE.as_bytes()), expected);
}

#[test]
fn fields_of_other_kinds() {
    let text = "   Network          Next Hop            Metric LocPrf Weight Path
   2001:db8::/32    ::ffff:192.0.2.1                       0 e
   ::/0             2001:db8::1         4294967295         0 ?
                    0.0.0.0                    4294967295  0 x
                    255.255.255.255
";
    let elements = elements_of(text.as_bytes());
    let (e, asns) = &elements[0];
    assert_eq!((e.peer_ip, e.peer_asn, e.count, e.origin_asn), ([0, 0, 0, 0].into(), Asn(0), 0, None));
    assert_eq!((e.prefix.to_string().as_str(), e.next_hop.to_string().as_str()), ("2001:db8::/32", "::ffff:192.0.2.1"));
    assert_eq!((e.origin, e.local_pref, e.metric, asns.len()), (Some(Origin::Egp), None, None, 0));
    let (e, _) = &elements[1];
    assert_eq!((e.prefix.to_string().as_str(), e.origin), ("::/0", Some(Origin::Incomplete)));
    assert_eq!((e.metric, e.local_pref), (Some(4294967), Some(295)), "a number that crosses into the next column");
    let (e, _) = &elements[2];
    assert_eq!((e.next_hop, e.origin, e.metric, e.local_pref), ([0, 0, 0, 0].into(), None, None, Some(4294967)));
    assert_eq!(elements.len(), 3, "a line that ends inside its next hop's column is no route");
}

#[test]
fn refusals() {
    let text = EXAMPLE.as_bytes();
    assert_eq!(State::open(text, 0.5), Err(OpenRefusal::NoTimestamp));
    assert_eq!(State::open(b"x\nx\n\xff\n", 0.0), Err(OpenRefusal::Unreadable { line: 3 }));
    assert_eq!(State::open(b"", 0.0), Err(OpenRefusal::NoColumns));
    let numbers =
        [OpenRefusal::NoTimestamp, OpenRefusal::Unreadable { line: 3 }, OpenRefusal::NoColumns].map(OpenRefusal::number);
    assert_eq!(numbers, [4, 1, 2]);

    let opened = State::open(text, 0.0).expect("the example opens");
    let mut state = opened;
    let mut asns = [Asn(7); 1];
    assert_eq!(state.next(text, &mut asns), Err(NextRefusal::TooFewPlaces));
    assert_eq!(state.next(b"x", &mut asns), Err(NextRefusal::Spoilt));
    assert_eq!(state.next(&[&text[..170], b"\xff"].concat(), &mut asns), Err(NextRefusal::Unreadable));
    assert_eq!((state, asns), (opened, [Asn(7)]));
    let numbers = [NextRefusal::Spoilt, NextRefusal::Unreadable, NextRefusal::TooFewPlaces].map(NextRefusal::number);
    assert_eq!(numbers, [5, 6, 7]);
}

#[test]
fn states_and_their_bytes() {
    let mut state = State::open(EXAMPLE.as_bytes(), 0.0).expect("the example opens");
    assert_eq!(State::from_bytes(state.to_bytes()), Some(state));
    assert_eq!(State::from_bytes([0xff; 128]), None);
    let mut bytes = state.to_bytes();
    state.turn();
    bytes[120..].fill(0);
    assert_eq!(state.to_bytes(), bytes);
}

/// Gives its text in pieces of changing sizes, and is interrupted now and then.
struct Pieces<'a>(&'a [u8], Random);

impl Read for Pieces<'_> {
    fn read(&mut self, buffer: &mut [u8]) -> io::Result<usize> {
        if self.1.one_in(9) {
            return Err(io::ErrorKind::Interrupted.into());
        }
        let n = (1 + self.1.below(700)).min(buffer.len()).min(self.0.len());
        buffer[..n].copy_from_slice(&self.0[..n]);
        self.0 = &self.0[n..];
        Ok(n)
    }
}

#[test]
fn parts_end_behind_a_line_feed_and_lose_nothing() {
    let mut random = Random::new(5);
    let text = [table(&mut random, 20_000), vec![b'x'; 3_000], b"\n\ny".to_vec()].concat();
    for size in [0, 1, 10, 80, 500, 4096, 65536] {
        for lines in [0, 1, 3, HEADER_LINES] {
            let mut parts = Parts::new(Pieces(&text, Random::new(size as u64)), size);
            let mut joined: Vec<u8> = Vec::new();
            loop {
                let part = parts.next(lines).expect("no error");
                if part.is_empty() {
                    break;
                }
                joined.extend(part);
                if joined.len() < text.len() {
                    assert!(part.ends_with(b"\n"));
                    assert!(part.iter().filter(|b| **b == b'\n').count() >= lines);
                }
            }
            assert_eq!(joined, text);
        }
    }
}

#[test]
fn a_table_in_parts_gives_its_elements() {
    let text = table(&mut Random::new(8), 200_000);
    let whole = elements_of(&text);
    for size in [1, 1000, 65536] {
        let mut asns = [Asn(0); 64];
        let mut all = Vec::new();
        let mut parts = Parts::new(&text[..], size);
        let mut part = parts.next(HEADER_LINES).expect("no error");
        let mut state = State::open(part, 60.0).expect("the table opens");
        while !part.is_empty() {
            while let Next::Element(element) = state.next(part, &mut asns).expect("the table reads") {
                all.push((element, asns[..element.count].to_vec()));
            }
            state.turn();
            part = parts.next(1).expect("no error");
        }
        assert!(all == whole, "parts of {size} bytes");
    }
}
