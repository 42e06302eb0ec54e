//! Our answers, in the oracle's words.

use fernweeks::{detect, Asn, Element, Next, NextRefusal, OpenRefusal, State};
use listings::Random;
use std::fmt::{Display, Write};
use std::net::IpAddr;

pub fn detection(text: &[u8]) -> String {
    if detect(text) { "yes" } else { "no" }.to_string()
}

/// The number in a slot of a state.
fn word(state: &State, slot: usize) -> u64 {
    u64::from_le_bytes(state.to_bytes()[8 * slot..8 * slot + 8].try_into().expect("eight bytes"))
}

/// What opening read, by the state's bytes; `-` for what the oracle calls missing is told as 0.0.0.0 or 0.
pub fn header(text: &[u8]) -> String {
    let state = match State::open(text, 0.0) {
        Ok(state) => state,
        Err(OpenRefusal::NoColumns) => return "no columns".to_string(),
        Err(_) => return "error".to_string(),
    };
    let word = |slot| word(&state, slot);
    let peer = match word(5) {
        0 => IpAddr::from((word(7) as u32).to_be_bytes()),
        _ => IpAddr::from((u128::from(word(6)) << 64 | u128::from(word(7))).to_be_bytes()),
    };
    let columns: Vec<String> = (0..5).map(|slot| word(slot).to_string()).collect();
    format!("router={peer} as={} columns={} consumed={}", word(8), columns.join(","), word(15))
}

/// The elements of a listing, read in parts that end behind line feeds, cut at random.
pub fn elements(text: &[u8], seconds: i64, random: &mut Random, asns: &mut [Asn]) -> String {
    let mut state = match State::open(text, seconds as f64) {
        Ok(state) => state,
        Err(OpenRefusal::Unreadable { line }) => return format!("error utf8 line={line}"),
        Err(OpenRefusal::NoColumns) => return "error columns".to_string(),
        Err(OpenRefusal::NoTimestamp) => return "error timestamp".to_string(),
    };
    let body = word(&state, 15) as usize;
    let (mut count, mut all) = (0, String::new());
    let (mut from, mut readable) = (0, "yes".to_string());
    'parts: loop {
        let to = part_end(text, from.max(body), random);
        loop {
            match state.next(&text[from..to], asns) {
                Ok(Next::Element(element)) => {
                    count += 1;
                    element_into(&element, &asns[..element.count], &mut all);
                }
                Ok(Next::End) => break,
                Err(NextRefusal::Unreadable) => {
                    readable = format!("no:{}", unreadable_line(text, from + word(&state, 15) as usize));
                    break 'parts;
                }
                Err(refusal) => return format!("refused {}", refusal.number()),
            }
        }
        if to == text.len() {
            break;
        }
        state.turn();
        from = to;
    }
    format!("{count} utf8={readable}{all}")
}

/// The number of the first unreadable line from a line's start on.
fn unreadable_line(text: &[u8], from: usize) -> usize {
    let lines = |text: &'_ [u8]| text.split_inclusive(|byte| *byte == b'\n').count();
    let mut rest = text[from..].split_inclusive(|byte| *byte == b'\n');
    let readable = rest.position(|line| std::str::from_utf8(line).is_err()).unwrap_or(usize::MAX - 1);
    lines(&text[..from]) + readable + 1
}

/// The end of a part: mostly the text's end, else behind a line feed.
fn part_end(text: &[u8], from: usize, random: &mut Random) -> usize {
    if random.one_in(2) {
        return text.len();
    }
    let at = from + random.below(text.len() - from + 1);
    text[at..].iter().position(|byte| *byte == b'\n').map_or(text.len(), |feed| at + feed + 1)
}

fn text_of<T: Display>(value: Option<T>) -> String {
    value.map_or_else(String::new, |value| value.to_string())
}

fn joined(asns: &[Asn], by: &str) -> String {
    let numbers: Vec<String> = asns.iter().map(Asn::to_string).collect();
    numbers.join(by)
}

/// The PSV line, the AS numbers, the origin AS.
fn element_into(e: &Element, asns: &[Asn], out: &mut String) {
    let numbers = if asns.is_empty() { "-".to_string() } else { joined(asns, ",") };
    let origin_asn = e.origin_asn.map_or_else(|| "none".to_string(), |asn| asn.to_string());
    write!(
        out,
        "\t{}|{}|{}|{}|{}|{}|{}|{}|{}|{}|{}||false|||#{numbers}#{origin_asn}",
        if e.announce { "A" } else { "W" },
        e.timestamp,
        e.peer_ip,
        e.peer_asn,
        e.prefix,
        joined(asns, " "),
        text_of(e.origin_asn),
        text_of(e.origin),
        e.next_hop,
        text_of(e.local_pref),
        text_of(e.metric),
    )
    .expect("a String takes every write");
}
