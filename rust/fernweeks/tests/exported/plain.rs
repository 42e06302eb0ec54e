//! The exported calls once more, written plainly from the specification over Rust's own text, numbers and addresses, to compare
//! with. A state is a struct here, and `to_bytes` and `from_bytes` are `docs/LAYOUT.md`.

use std::net::{IpAddr, Ipv4Addr, Ipv6Addr};

#[derive(Clone, Copy, PartialEq, Debug)]
pub struct Prefix {
    pub addr: IpAddr,
    pub len: u8,
}

#[derive(Clone, Copy, PartialEq, Debug)]
pub enum Remembered {
    Nothing,
    Invalid,
    Valid(Prefix),
}

/// Next Hop, Metric, LocPrf, Weight, Path.
pub type Columns = [usize; 5];

#[derive(Clone, Copy, PartialEq, Debug)]
pub struct State {
    pub columns: Columns,
    pub peer_ip: IpAddr,
    pub peer_asn: u32,
    pub timestamp: f64,
    pub remembered: Remembered,
    pub position: usize,
}

#[derive(Clone, PartialEq, Debug)]
pub struct Element {
    pub timestamp: f64,
    pub peer_ip: IpAddr,
    pub peer_asn: u32,
    pub prefix: Prefix,
    pub next_hop: IpAddr,
    pub asns: Vec<u32>,
    pub origin: Option<u32>,
    pub local_pref: Option<u32>,
    pub metric: Option<u32>,
}

#[derive(Clone, PartialEq, Debug)]
pub enum Answer {
    Element(Element),
    End,
    Refused(u32),
}

// Text

pub fn lines(text: &[u8]) -> impl Iterator<Item = &[u8]> {
    text.split_inclusive(|byte| *byte == b'\n')
}

fn read_prefix(text: &str) -> Option<Prefix> {
    let (addr, len) = text.split_once('/')?;
    let addr: IpAddr = addr.parse().ok()?;
    let (digits, most) = if addr.is_ipv4() { (2, 32) } else { (3, 128) };
    if len.is_empty() || len.len() > digits || !len.bytes().all(|byte| byte.is_ascii_digit()) {
        return None;
    }
    let len: u32 = len.parse().ok()?;
    (len <= most).then_some(Prefix { addr, len: len as u8 })
}

/// The text after the first mark, up to a second one.
fn behind<'a>(text: &'a str, mark: &str) -> Option<&'a str> {
    let (_, after) = text.split_once(mark)?;
    Some(after.split_once(mark).map_or(after, |(before, _)| before))
}

// Header

pub fn detect(bytes: &[u8]) -> bool {
    let front = &bytes[..bytes.len().min(128)];
    let marks = ["BGP table", "Next Hop", "Status codes:"];
    match (front.first(), std::str::from_utf8(front)) {
        (Some(0x21..=0x7e), Ok(text)) => marks.iter().any(|mark| text.contains(mark)),
        _ => false,
    }
}

fn columns_of(line: &str) -> Option<Columns> {
    let mut words: Vec<(usize, &str)> = Vec::new();
    for word in line.split([' ', '\t', '\n', '\x0c', '\r']).filter(|word| !word.is_empty()) {
        words.push((word.as_ptr() as usize - line.as_ptr() as usize, word));
    }
    let mut found = [None; 5];
    let mut i = 0;
    while i < words.len() {
        let (at, word) = words[i];
        if word == "Next" && i + 1 < words.len() && words[i + 1].1 == "Hop" {
            found[0] = Some(at);
            i += 1;
        }
        for (k, name) in ["Metric", "LocPrf", "Weight", "Path"].into_iter().enumerate() {
            if word == name {
                found[k + 1] = Some(at);
            }
        }
        i += 1;
    }
    let columns = [found[0]?, found[1]?, found[2]?, found[3]?, found[4]?];
    rising(columns).then_some(columns)
}

fn rising(columns: Columns) -> bool {
    columns.windows(2).all(|pair| pair[0] < pair[1])
}

pub fn is_timestamp(t: f64) -> bool {
    t.fract() == 0.0 && (-62167219200.0..=253402300799.0).contains(&t) && t.to_bits() != (-0.0f64).to_bits()
}

/// The state, or the refusal with the line at fault (0 if there is none).
pub fn open(text: &[u8], timestamp: f64) -> Result<State, (u32, u64)> {
    if !is_timestamp(timestamp) {
        return Err((4, 0));
    }
    let (mut peer_ip, mut peer_asn, mut position) = (None, None, 0);
    for (i, line) in lines(text).take(64).enumerate() {
        position += line.len();
        let line = std::str::from_utf8(line).map_err(|_| (1, i as u64 + 1))?.trim_end();
        if let Some((_, rest)) = line.strip_prefix("BGP table version is ").and_then(|rest| rest.split_once(',')) {
            if let Some((id, _)) = behind(rest, "local router ID is ").and_then(|text| text.split_once(',')) {
                peer_ip = id.trim().parse().ok();
            }
        }
        if line.starts_with("Default local pref") {
            if let Some(number) = behind(line, "local AS ") {
                peer_asn = number.trim().parse().ok();
            }
        }
        if let Some(columns) = columns_of(line) {
            return Ok(State {
                columns,
                peer_ip: peer_ip.unwrap_or(IpAddr::V4(Ipv4Addr::UNSPECIFIED)),
                peer_asn: peer_asn.unwrap_or(0),
                timestamp,
                remembered: Remembered::Nothing,
                position,
            });
        }
    }
    Err((2, 0))
}

// Body lines

pub struct Route<'a> {
    prefix_text: &'a str,
    next_hop: IpAddr,
    metric: Option<u32>,
    local_pref: Option<u32>,
    origin: Option<u32>,
    asns: Vec<u32>,
}

pub enum Line<'a> {
    Unreadable,
    Passed,
    Wrapped(Prefix),
    Route(Route<'a>),
}

fn route(line: &str, [next_hop, metric, local_pref, weight, path]: Columns) -> Option<Route<'_>> {
    if line.trim_start().starts_with("Displayed") {
        return None;
    }
    let number = |from: usize, to: usize| line.get(from..to).and_then(|text| text.trim().parse().ok());
    let mut tokens: Vec<&str> = line.get(path..).unwrap_or("").split_whitespace().collect();
    let origin = tokens.last().and_then(|last| ["i", "e", "?"].iter().position(|code| code == last)).map(|code| code as u32);
    if origin.is_some() {
        tokens.pop();
    }
    Some(Route {
        prefix_text: line.get(3..next_hop).unwrap_or("").trim(),
        next_hop: line.get(next_hop..metric)?.trim().parse().ok()?,
        metric: number(metric, local_pref),
        local_pref: number(local_pref, weight),
        origin,
        asns: tokens.iter().filter_map(|token| token.parse().ok()).collect(),
    })
}

pub fn line_of(line: &[u8], columns: Columns) -> Line<'_> {
    let Ok(line) = std::str::from_utf8(line) else {
        return Line::Unreadable;
    };
    let line = line.trim_end();
    if line.is_empty() {
        return Line::Passed;
    }
    let shifted = || (columns[0] >= 1).then(|| columns.map(|at| at.wrapping_sub(1)));
    if let Some(route) = route(line, columns).or_else(|| route(line, shifted()?)) {
        return Line::Route(route);
    }
    match line.get(3..).filter(|_| line.len() <= columns[0]).and_then(|text| read_prefix(text.trim())) {
        Some(prefix) => Line::Wrapped(prefix),
        None => Line::Passed,
    }
}

// Reader

fn spoilt(state: &State, part: &[u8]) -> bool {
    let prefix = match state.remembered {
        Remembered::Valid(p) => p.len <= if p.addr.is_ipv4() { 32 } else { 128 },
        _ => true,
    };
    state.position > part.len() || !rising(state.columns) || !is_timestamp(state.timestamp) || !prefix
}

/// The answer with so many AS places, and the state behind it.
pub fn next(state: State, part: &[u8], places: usize) -> (Answer, State) {
    if spoilt(&state, part) {
        return (Answer::Refused(5), state);
    }
    let mut after = state;
    for line in lines(&part[state.position..]) {
        after.position += line.len();
        match line_of(line, state.columns) {
            Line::Unreadable => return (Answer::Refused(6), state),
            Line::Passed => {}
            Line::Wrapped(prefix) => after.remembered = Remembered::Valid(prefix),
            Line::Route(route) => {
                if !route.prefix_text.is_empty() {
                    after.remembered = read_prefix(route.prefix_text).map_or(Remembered::Invalid, Remembered::Valid);
                }
                let Remembered::Valid(prefix) = after.remembered else {
                    continue;
                };
                if route.asns.len() > places {
                    return (Answer::Refused(7), state);
                }
                let element = Element {
                    timestamp: state.timestamp,
                    peer_ip: state.peer_ip,
                    peer_asn: state.peer_asn,
                    prefix,
                    next_hop: route.next_hop,
                    asns: route.asns,
                    origin: route.origin,
                    local_pref: route.local_pref,
                    metric: route.metric,
                };
                return (Answer::Element(element), after);
            }
        }
    }
    (Answer::End, after)
}

pub fn turn(state: State) -> State {
    State { position: 0, ..state }
}

// Layout

fn address_words(addr: IpAddr) -> [u64; 3] {
    match addr {
        IpAddr::V4(a) => [0, 0, u64::from(u32::from(a))],
        IpAddr::V6(a) => {
            let number = u128::from(a);
            [1, (number >> 64) as u64, number as u64]
        }
    }
}

fn optional_words(value: Option<u32>) -> [u64; 2] {
    value.map_or([0, 0], |v| [1, u64::from(v)])
}

fn bytes_of<const N: usize>(words: &[u64]) -> [u8; N] {
    let bytes: Vec<u8> = words.iter().flat_map(|word| word.to_le_bytes()).collect();
    bytes.try_into().expect("eight bytes a word")
}

fn address_in(kind: u64, upper: u64, lower: u64) -> Option<IpAddr> {
    match kind {
        0 if upper == 0 => u32::try_from(lower).ok().map(|a| IpAddr::V4(Ipv4Addr::from(a))),
        1 => Some(IpAddr::V6(Ipv6Addr::from(u128::from(upper) << 64 | u128::from(lower)))),
        _ => None,
    }
}

impl State {
    pub fn to_bytes(self) -> [u8; 128] {
        let (kind, prefix) = match self.remembered {
            Remembered::Nothing => (0, [0; 4]),
            Remembered::Invalid => (1, [0; 4]),
            Remembered::Valid(p) => {
                let [kind, upper, lower] = address_words(p.addr);
                (2, [kind, upper, lower, u64::from(p.len)])
            }
        };
        let mut words: Vec<u64> = self.columns.iter().map(|at| *at as u64).collect();
        words.extend(address_words(self.peer_ip));
        words.extend([u64::from(self.peer_asn), self.timestamp.to_bits(), kind]);
        words.extend(prefix);
        words.push(self.position as u64);
        bytes_of(&words)
    }

    pub fn from_bytes(bytes: &[u8; 128]) -> Option<State> {
        let w: Vec<u64> = bytes.chunks(8).map(|word| u64::from_le_bytes(word.try_into().expect("eight bytes"))).collect();
        let timestamp = f64::from_bits(w[9]);
        let remembered = match w[10] {
            0 if w[11..15] == [0; 4] => Remembered::Nothing,
            1 if w[11..15] == [0; 4] => Remembered::Invalid,
            2 => Remembered::Valid(Prefix { addr: address_in(w[11], w[12], w[13])?, len: u8::try_from(w[14]).ok()? }),
            _ => return None,
        };
        let state = State {
            columns: [w[0] as usize, w[1] as usize, w[2] as usize, w[3] as usize, w[4] as usize],
            peer_ip: address_in(w[5], w[6], w[7])?,
            peer_asn: u32::try_from(w[8]).ok()?,
            timestamp,
            remembered,
            position: w[15] as usize,
        };
        is_timestamp(timestamp).then_some(state)
    }
}

impl Element {
    pub fn to_bytes(&self) -> [u8; 176] {
        let mut words = vec![1, self.timestamp.to_bits()];
        words.extend(address_words(self.peer_ip));
        words.push(u64::from(self.peer_asn));
        words.extend(address_words(self.prefix.addr));
        words.push(u64::from(self.prefix.len));
        words.extend(address_words(self.next_hop));
        words.push(self.asns.len() as u64);
        words.extend(optional_words(self.asns.last().copied()));
        words.extend(optional_words(self.origin));
        words.extend(optional_words(self.local_pref));
        words.extend(optional_words(self.metric));
        bytes_of(&words)
    }
}
