//! Each exported call and each of its refusals. `checked` compares every byte of what is lent.

use crate::checked::{bytes, lent, next, open, places, turn};
use crate::plain::{self, Prefix, Remembered};
use fernweeks::calls;
use listings::{damaged, Random, EXAMPLE};

const NOT_TIMESTAMPS: [f64; 12] = [
    f64::NAN,
    f64::INFINITY,
    f64::NEG_INFINITY,
    -0.0,
    0.5,
    -0.5,
    1e-310,
    253402300800.0,
    -62167219201.0,
    253402300798.5,
    9007199254740992.0,
    -1e300,
];

fn opened() -> plain::State {
    plain::open(EXAMPLE.as_bytes(), 1709251200.0).expect("the example opens")
}

#[test]
fn detection() {
    let yes: [&[u8]; 3] = [EXAMPLE.as_bytes(), b"x Next Hop", b"Status codes: x"];
    let no: [&[u8]; 5] = [b"", b" BGP table", b"BGP tabl", b"\xffBGP table", b"BGP\x80table BGP table"];
    yes.iter().for_each(|text| assert_eq!(calls::detect(text), 1, "{text:?}"));
    no.iter().for_each(|text| assert_eq!(calls::detect(text), 0, "{text:?}"));

    // a mark ends by byte 128; a character cut there says no; what is behind does not matter
    let behind = |letters: usize, text: &[u8]| [&vec![b'x'; letters][..], text].concat();
    assert_eq!(calls::detect(&behind(119, b"BGP table")), 1);
    assert_eq!(calls::detect(&behind(120, b"BGP table")), 0);
    assert_eq!(calls::detect(&behind(118, b"BGP table\xff")), 0);
    assert_eq!(calls::detect(&behind(119, b"BGP table\xff")), 1);
    assert_eq!(calls::detect(&[b"BGP table", &[b'x'; 118][..], "é".as_bytes()].concat()), 0);
}

#[test]
fn detection_of_damaged_texts() {
    let mut random = Random::new(6);
    let mut yes = 0;
    for mark in ["BGP table", "Next Hop", "Status codes:"] {
        for letter in ["x", "é", "€"] {
            for before in 0..=140 / letter.len() {
                let text = ["x", &letter.repeat(before), mark, &letter.repeat(20)].concat();
                for end in 0..=text.len() {
                    let text = &text.as_bytes()[..end];
                    assert_eq!(calls::detect(text), u32::from(plain::detect(text)), "{}", text.escape_ascii());
                }
                let text = damaged(&mut random, text.as_bytes());
                assert_eq!(calls::detect(&text), u32::from(plain::detect(&text)), "{}", text.escape_ascii());
                yes += calls::detect(&text);
            }
        }
    }
    assert!(yes > 100, "{yes} times yes");
}

#[test]
fn open_takes_a_table() {
    for len in [128, 129, 200] {
        assert_eq!(open(EXAMPLE.as_bytes(), 1709251200.0, &mut lent(len)), 0);
    }
    for timestamp in [0.0, 1.0, -1.0, 253402300799.0, -62167219200.0] {
        assert_eq!(open(EXAMPLE.as_bytes(), timestamp, &mut lent(128)), 0);
    }
}

#[test]
fn open_refuses_a_short_state_first() {
    for len in 0..128 {
        assert_eq!(open(EXAMPLE.as_bytes(), 0.0, &mut lent(len)), 9);
        assert_eq!(open(b"\xff", f64::NAN, &mut lent(len)), 9);
    }
}

#[test]
fn open_refuses_a_timestamp_before_the_text() {
    for timestamp in NOT_TIMESTAMPS {
        assert_eq!(open(EXAMPLE.as_bytes(), timestamp, &mut lent(128)), 4);
        assert_eq!(open(b"\xff", timestamp, &mut lent(128)), 4);
        assert_eq!(open(b"", timestamp, &mut lent(128)), 4);
    }
}

#[test]
fn open_refuses_an_unreadable_line_with_its_number() {
    let column_line = "Next Hop Metric LocPrf Weight Path\n";
    for line in 1..=64 {
        let text = [&b"x\n".repeat(line - 1)[..], b"\xff\n", column_line.as_bytes()].concat();
        assert_eq!(open(&text, 0.0, &mut lent(128)), 1);
        assert_eq!(calls::line_at_fault(&text), line as u64);
    }
    // behind the column header, or behind the 64th line, nothing is looked at
    assert_eq!(open(&[column_line.as_bytes(), b"\xff"].concat(), 0.0, &mut lent(128)), 0);
    assert_eq!(open(&[&b"x\n".repeat(64)[..], b"\xff"].concat(), 0.0, &mut lent(128)), 2);
}

#[test]
fn open_refuses_a_text_without_columns() {
    for text in
        ["", "\n", "Next Hop Metric LocPrf Weight", "Metric Next Hop LocPrf Weight Path", "NextHop Metric LocPrf Weight Path"]
    {
        assert_eq!(open(text.as_bytes(), 0.0, &mut lent(128)), 2);
    }
    let column_line = b"Next Hop Metric LocPrf Weight Path";
    assert_eq!(open(&[&b"x\n".repeat(63)[..], column_line].concat(), 0.0, &mut lent(128)), 0);
    assert_eq!(open(&[&b"x\n".repeat(64)[..], column_line].concat(), 0.0, &mut lent(128)), 2);
}

#[test]
fn next_gives_the_elements() {
    for (state_len, element_len, asn_places) in [(128, 176, 2), (129, 177, 3), (200, 200, 40)] {
        let (mut state, mut asns, mut element) = (lent(state_len), places(asn_places), lent(element_len));
        assert_eq!(open(EXAMPLE.as_bytes(), 1709251200.0, &mut state), 0);
        for answer in [0, 0, 255, 255, 255] {
            assert_eq!(next(&mut state, EXAMPLE.as_bytes(), &mut asns, &mut element), answer);
        }
    }
}

#[test]
fn next_refuses_short_parts_first() {
    let spoilt = plain::State { columns: [0; 5], ..opened() };
    for here in [opened(), spoilt] {
        for len in 0..128 {
            assert_eq!(next(&mut bytes(here)[..len], EXAMPLE.as_bytes(), &mut places(2), &mut lent(176)), 9);
        }
        for len in 0..176 {
            assert_eq!(next(&mut bytes(here), EXAMPLE.as_bytes(), &mut places(2), &mut lent(len)), 9);
        }
    }
    assert_eq!(next(&mut [0xff; 128], b"\xff", &mut [], &mut lent(175)), 9);
}

/// Bytes that spell no state, one for each rule of the layout.
fn not_states() -> Vec<Vec<u8>> {
    let valid = plain::State { remembered: Remembered::Valid(Prefix { addr: [192, 0, 2, 0].into(), len: 24 }), ..opened() };
    let word = |state: plain::State, slot: usize, value: u64| {
        let mut state = bytes(state);
        state[8 * slot..8 * slot + 8].copy_from_slice(&value.to_le_bytes());
        state
    };
    let mut all = vec![vec![0xff; 128]];
    all.extend(NOT_TIMESTAMPS.map(|t| word(opened(), 9, t.to_bits())));
    all.push(word(opened(), 5, 2)); // a kind of address that there is not
    all.push(word(opened(), 6, 1)); // the upper half of an IPv4 address
    all.push(word(opened(), 7, 1 << 32)); // an IPv4 address of 33 bits
    all.push(word(opened(), 8, 1 << 32)); // an AS number of 33 bits
    all.push(word(opened(), 10, 3)); // a kind of remembered prefix that there is not
    for slot in 11..15 {
        all.push(word(opened(), slot, 1)); // a prefix where none is remembered
        all.push(word(plain::State { remembered: Remembered::Invalid, ..opened() }, slot, 1));
    }
    all.push(word(valid, 11, 2));
    all.push(word(valid, 12, 1));
    all.push(word(valid, 13, 1 << 32));
    all.push(word(valid, 14, 256));
    all
}

/// States that are spelled and spoilt, for a part of the example's length.
fn spoilt_states() -> Vec<plain::State> {
    let valid = |addr: &str, len| Remembered::Valid(Prefix { addr: addr.parse().expect("an address"), len });
    let mut all = vec![
        plain::State { position: EXAMPLE.len() + 1, ..opened() },
        plain::State { position: usize::MAX, ..opened() },
        plain::State { remembered: valid("192.0.2.0", 33), ..opened() },
        plain::State { remembered: valid("192.0.2.0", 255), ..opened() },
        plain::State { remembered: valid("2001:db8::", 129), ..opened() },
    ];
    for k in 0..4 {
        for above in [0, 1] {
            let mut columns = opened().columns;
            columns[k] = columns[k + 1] + above;
            all.push(plain::State { columns, ..opened() });
        }
    }
    all
}

#[test]
fn next_refuses_what_is_no_state_or_a_spoilt_one() {
    let states = not_states().into_iter().chain(spoilt_states().into_iter().map(bytes));
    for mut state in states {
        for part in [EXAMPLE.as_bytes(), b"\xff", b""] {
            for asn_places in [0, 2] {
                assert_eq!(next(&mut state, part, &mut places(asn_places), &mut lent(176)), 5);
            }
        }
    }
}

#[test]
fn next_refuses_an_unreadable_line_before_an_element() {
    let route = "*> 198.51.100.0/24  192.0.2.1                0             0 64501 64502 i\n";
    let here = plain::State { position: 0, ..opened() };
    for passed in ["", "\n", "junk\n", "   10.0.0.0/8\n"] {
        let part = [passed.as_bytes(), b"*> \xff\n", route.as_bytes()].concat();
        assert_eq!(next(&mut bytes(here), &part, &mut places(2), &mut lent(176)), 6);
        assert_eq!(next(&mut bytes(here), &part, &mut [], &mut lent(176)), 6);
    }
    // an element before it is given, and its places are looked at
    let part = [route.as_bytes(), b"\xff\n"].concat();
    let mut state = bytes(here);
    assert_eq!(next(&mut state, &part, &mut places(1), &mut lent(176)), 7);
    assert_eq!(next(&mut state, &part, &mut places(2), &mut lent(176)), 0);
    assert_eq!(next(&mut state, &part, &mut places(2), &mut lent(176)), 6);
    assert_eq!(next(&mut state, &part, &mut places(2), &mut lent(176)), 6);
}

#[test]
fn next_refuses_too_few_places() {
    for count in [0, 1, 2, 3, 30] {
        let numbers: Vec<String> = (0..count).map(|n| (64496 + n).to_string()).collect();
        let part = format!("*> 198.51.100.0/24  192.0.2.1                0             0 x {} i", numbers.join(" y "));
        let here = plain::State { position: 0, ..opened() };
        for asn_places in 0..count {
            assert_eq!(next(&mut bytes(here), part.as_bytes(), &mut places(asn_places), &mut lent(176)), 7);
        }
        for asn_places in [count, count + 1, count + 7] {
            assert_eq!(next(&mut bytes(here), part.as_bytes(), &mut places(asn_places), &mut lent(176)), 0);
        }
    }
}

#[test]
fn turn_sets_the_position_to_0() {
    for state in spoilt_states().into_iter().chain([opened()]) {
        let mut state = [bytes(state), vec![7; 3]].concat();
        assert_eq!(turn(&mut state), 0);
        assert_eq!(turn(&mut state), 0);
    }
}

#[test]
fn turn_refuses_a_short_state_and_what_is_no_state() {
    for len in 0..128 {
        assert_eq!(turn(&mut bytes(opened())[..len]), 9);
        assert_eq!(turn(&mut vec![0xff; len]), 9);
    }
    for mut state in not_states() {
        assert_eq!(turn(&mut state), 5);
    }
}
