//! Lists of calls over the parts of a table: whole tables, parts cut at every place, early turns, calls after End, too few places.

use crate::checked::{bytes, lent, next, open, places, read, turn};
use crate::plain::{self, Answer};
use listings::{damaged, odd, table, Random, EXAMPLE};

/// A table with a line of each kind.
const EVERY_KIND: &str = "BGP table version is 7, local router ID is 192.0.2.254, vrf id 0
   Network          Next Hop            Metric LocPrf Weight Path
*                   192.0.2.9                              0 1 i
*> 198.51.100.0/24  192.0.2.1                0             0 64501 64502 i
*                   192.0.2.2                     150      0 64503 é {5} 6 ?

*> 2001:db8::/32
                    2001:db8::1              7      8      0 9 e
*> 10.0.0.0/33      192.0.2.3                              0 1 2 i
*                   192.0.2.4                              0 3 i
junk
*> 10.0.0.0/8      192.0.2.5                              0 4\u{a0}5\u{3000}6 i
*> 203.0.113.0/24   192.0.2.6
Displayed  9 routes
*                   192.0.2.7                   +1         0 i";

/// The elements and the last answer where each part is read until it gives no further element.
fn read_parts(header: plain::State, parts: &[&[u8]]) -> (Vec<[u8; 176]>, u32) {
    let (mut state, mut asns) = (bytes(header), places(40));
    let (mut elements, mut number) = (Vec::new(), 255);
    for (i, part) in parts.iter().enumerate() {
        if i > 0 {
            assert_eq!(turn(&mut state), 0);
        }
        loop {
            let mut element = [0; 176];
            number = next(&mut state, part, &mut asns, &mut element);
            if number != 0 {
                break;
            }
            elements.push(element);
        }
    }
    (elements, number)
}

#[test]
fn of_tables_cut_at_every_place() {
    for text in [EXAMPLE, EVERY_KIND] {
        let text = text.as_bytes();
        let header = plain::open(text, 0.0).expect("the table opens");
        let (whole, number) = read_parts(header, &[text]);
        assert_eq!(number, 255);
        for at in header.position..=text.len() {
            let (first, second) = text.split_at(at);
            let (elements, _) = read_parts(header, &[first, second]);
            if text[at - 1] == b'\n' || at == text.len() {
                assert_eq!(elements, whole, "cut at {at}");
            }
            for later in at..=text.len() {
                let (second, third) = (&text[at..later], &text[later..]);
                let (elements, _) = read_parts(header, &[first, second, third]);
                if text[at - 1] == b'\n' && (later == at || text[later - 1] == b'\n') {
                    assert_eq!(elements, whole, "cut at {at} and {later}");
                }
            }
        }
    }
}

/// A body of parts: cut behind line feeds, or anywhere.
fn cut<'a>(random: &mut Random, text: &'a [u8], from: usize) -> Vec<&'a [u8]> {
    let anywhere = random.one_in(2);
    let mut places: Vec<usize> = (from..=text.len()).filter(|at| anywhere || *at == from || text[at - 1] == b'\n').collect();
    places.retain(|_| random.one_in(if anywhere { 40 } else { 3 }));
    let mut parts = Vec::new();
    let mut start = 0;
    for at in places {
        parts.push(&text[start..at]);
        start = at;
        if random.one_in(10) {
            parts.push(b"");
        }
    }
    parts.push(&text[start..]);
    parts
}

/// Makes a list of calls, each checked, and follows it with the plain reader alone, that is without the bytes of a state.
fn call_list(random: &mut Random, text: &[u8]) -> usize {
    let Ok(mut plain_state) = plain::open(text, 60.0) else {
        return 0;
    };
    let mut state = lent(128);
    assert_eq!(open(text, 60.0, &mut state), 0);
    let (mut calls, parts) = (1, cut(random, text, plain_state.position));
    for (i, part) in parts.iter().enumerate() {
        let mut left = if random.one_in(6) { random.below(4) } else { 200 };
        while left > 0 {
            let count = if random.one_in(3) { random.below(4) } else { 40 };
            let (answer, after) = plain::next(plain_state, part, count);
            let expected = match answer {
                Answer::Element(_) => 0,
                Answer::End => 255,
                Answer::Refused(number) => number,
            };
            assert_eq!(next(&mut state, part, &mut places(count), &mut lent(176)), expected);
            plain_state = after;
            calls += 1;
            // at the end, or at a line that cannot be read, a few more calls
            left = if expected == 0 || expected == 7 { left - 1 } else { left.min(1 + random.below(3)) - 1 };
        }
        if i + 1 < parts.len() {
            plain_state = plain::turn(plain_state);
            assert_eq!(turn(&mut state), 0);
            calls += 1;
        }
    }
    assert_eq!(state, bytes(plain_state));
    calls
}

#[test]
fn of_random_calls() {
    let mut random = Random::new(3);
    let mut calls = 0;
    for _ in 0..4_000 {
        calls += call_list(&mut random, EVERY_KIND.as_bytes());
        let listing = odd(&mut random);
        calls += call_list(&mut random, &listing);
    }
    assert!(calls > 100_000, "{calls} calls");
}

#[test]
fn of_whole_odd_and_damaged_listings() {
    let mut random = Random::new(1);
    let mut elements = 0;
    let mut answers = [0; 256];
    for _ in 0..60_000 {
        let listing = odd(&mut random);
        for text in [damaged(&mut random, &listing), listing] {
            let (count, answer) = read(&text);
            elements += count;
            answers[answer as usize] += 1;
        }
    }
    assert!(elements > 100_000, "{elements} elements");
    for number in [1, 2, 6, 255] {
        assert!(answers[number] > 100, "{number} was answered {} times", answers[number]);
    }
}

#[test]
fn of_a_long_table() {
    let text = table(&mut Random::new(2), 300_000);
    let (elements, answer) = read(&text);
    assert_eq!(answer, 255);
    assert!(elements > 3_000, "{elements} elements");
}
