//! Small listings around every rule of the reading: odd headers, routes with and without prefixes, wrapped and invalid prefixes,
//! shifted columns, lines cut short, junk, characters of more than one byte, bytes that are no UTF-8.

use crate::Random;

const SPACES: [&str; 9] = ["  ", "\t", "\u{b}", "\u{c}", "\r", "\u{85}", "\u{a0}", "\u{2003}", "\u{3000}"];
const CHARACTERS: [&str; 9] = ["é", "\u{a0}", "\u{85}", "\u{2028}", "\u{3000}", "€", "\u{1f600}", "\u{7f}", "\0"];
const UNREADABLE: [&[u8]; 7] = [b"\xff", b"\x80", b"\xc3", b"\xc0\x80", b"\xed\xa0\x80", b"\xf4\x90\x80\x80", b"\xe2\x82"];
const NUMBERS: [&str; 13] =
    ["0", "+7", "-0", "4294967295", "4294967296", "1e3", "007", "", "+", "1 2", "99999999999999999999", "\u{661}", "7\u{a0}"];
const TOKENS: [&str; 18] = [
    "0",
    "4294967295",
    "4294967296",
    "+5",
    "-1",
    "007",
    "{64500,64501}",
    "{",
    "}",
    "i",
    "e",
    "?",
    "ii",
    "1.10",
    "é",
    "*",
    "I",
    "1i",
];
const ADDRESSES: [&str; 26] = [
    "192.0.02.1",
    "1.2.3",
    "1.2.3.4.5",
    "",
    "1.2.3.256",
    "0.0.0.0",
    "255.255.255.255",
    "1..2.3",
    "+1.2.3.4",
    "::",
    "::1",
    "::ffff:192.0.2.1",
    "1:2:3:4:5:6:7:8",
    "1:2:3:4:5:6:7::",
    "::2:3:4:5:6:7:8",
    "0:0:1::",
    "64:ff9b::192.0.2.33",
    "1:2:3:4:5:6:7",
    "1::2::3",
    ":1",
    "1:",
    "12345::",
    "::1:2:3:4:5:6:7:8",
    "fe80::1%1",
    "g::",
    "1:2:3:4:5:6:7:1.2.3.4",
];
const PREFIXES: [&str; 14] = [
    "10.1.2.3/8",
    "10.0.0.0",
    "0.0.0.0/0",
    "::/0",
    "/8",
    "x",
    "é",
    "10.0.0.0/8/8",
    "10.0.0.0 /8",
    "10.0.0.0/",
    "10.0.0.0/08",
    "10.0.0.0/008",
    "10.0.0.0/+8",
    "10.0.0.0/33",
];

/// A listing of some lines; of some listings nearly all is odd, of others hardly anything.
pub fn odd(random: &mut Random) -> Vec<u8> {
    let rare = random.pick(&[3, 8, 30]);
    let mut maker = Maker { random, rare, columns: [20, 40, 47, 54, 61] };
    let mut out = Vec::new();
    maker.header(&mut out);
    for _ in 0..maker.random.below(12) {
        maker.line(&mut out);
    }
    if maker.odd() && out.last() == Some(&b'\n') {
        out.pop();
    }
    out
}

struct Maker<'a> {
    random: &'a mut Random,
    rare: usize,
    columns: [usize; 5],
}

impl Maker<'_> {
    fn odd(&mut self) -> bool {
        self.random.one_in(self.rare)
    }

    /// The plain text, or once in a while an odd one.
    fn or_odd<'t>(&mut self, plain: &'t str, odd: &[&'t str]) -> &'t str {
        if self.odd() {
            self.random.pick(odd)
        } else {
            plain
        }
    }

    fn space(&mut self) -> &'static str {
        self.or_odd(" ", &SPACES)
    }

    fn number(&mut self) -> String {
        let plain = self.random.below(1000).to_string();
        self.or_odd(&plain, &NUMBERS).to_string()
    }

    fn address(&mut self) -> String {
        let word = self.random.word();
        let plain = match self.random.below(8) {
            0 => format!("2001:db8::{:x}", word & 0xffff),
            1 => format!("fe80:{:x}::{:x}:1", word & 0xffff, word >> 16 & 0xff),
            _ => format!("192.0.2.{}", word & 255),
        };
        self.or_odd(&plain, &ADDRESSES).to_string()
    }

    fn prefix(&mut self) -> String {
        let word = self.random.word();
        if self.odd() {
            let most = self.random.pick(&[33, 130]);
            return format!("{}/{}", self.address(), word % most);
        }
        let plain = match self.random.below(6) {
            0 => format!("2001:db8:{:x}::/{}", word & 0xffff, 32 + (word >> 32) % 33),
            _ => format!("{}.{}.{}.0/{}", 1 + word % 223, word >> 8 & 255, word >> 16 & 255, 8 + (word >> 32) % 17),
        };
        self.or_odd(&plain, &PREFIXES).to_string()
    }

    fn junk(&mut self) -> String {
        let mut text = String::new();
        for _ in 0..self.random.below(90) {
            match self.random.below(12) {
                0 => text.push_str(self.random.pick(&CHARACTERS)),
                _ => text.push(char::from(32 + self.random.below(95) as u8)),
            }
        }
        text
    }

    // Header

    fn header(&mut self, out: &mut Vec<u8>) {
        if self.random.one_in(64) {
            let lines = 55 + self.random.below(15);
            (0..lines).for_each(|_| out.extend(b"x\n"));
        }
        for _ in 0..self.random.below(4) {
            let text = self.preamble();
            self.end_line(text.into_bytes(), out);
        }
        let text = self.column_line();
        self.end_line(text.into_bytes(), out);
    }

    fn preamble(&mut self) -> String {
        let (space, number, address) = (self.space(), self.number(), self.address());
        match self.random.below(8) {
            0..=2 => {
                let comma = self.or_odd(", ", &[",", " ", ",,", ", x "]);
                let end =
                    self.or_odd(", vrf id 0", &[",", "", " ,x", ", local router ID is 1.2.3.4,", "local router ID is 9.9.9.9, "]);
                format!("BGP table version is {number}{comma}local router ID is{space}{address}{end}")
            }
            3..=5 => {
                let end = self.or_odd("", &[" ", " x", " local AS ", " local AS 3", "local AS"]);
                let pref = self.or_odd("100", &["", "local AS 5", "local AS 5, local AS 6"]);
                format!("Default local pref {pref}, local AS{space}{number}{end}")
            }
            6 => self
                .or_odd("Status codes: s suppressed, * valid, > best", &["BGP table version", "", " ", "\u{3000}"])
                .to_string(),
            _ => self.junk(),
        }
    }

    fn column_line(&mut self) -> String {
        if self.random.one_in(3) {
            let mut at = self.random.below(45);
            for column in &mut self.columns {
                *column = at;
                at += 9 + self.random.below(12);
            }
        }
        let mut text = self.or_odd("   Network", &["", "   é", "Default local pref 1, local AS 5", "\u{a0}\u{a0}"]).to_string();
        for k in 0..5 {
            if !text.is_empty() && text.len() >= self.columns[k] {
                text.push_str(self.space());
            }
            pad(&mut text, self.columns[k]);
            self.columns[k] = text.len();
            let name = ["Next Hop", "Metric", "LocPrf", "Weight", "Path"][k];
            let odd = self.odd() && self.odd();
            text.push_str(if odd {
                self.random.pick(&["next hop", "Metric", "Next Next Hop", "Weight", "Next\u{a0}Hop", "", "Next\tHop"])
            } else {
                name
            });
        }
        text.push_str(self.or_odd("", &[" ", "\r", " Path", " Next Hop", " x", "\u{a0}", "\u{a0}Path", "\u{b}"]));
        text
    }

    // Body

    fn line(&mut self, out: &mut Vec<u8>) {
        let text = match self.random.below(32) {
            0..=13 => {
                let prefix = self.prefix();
                self.route(&prefix)
            }
            14..=23 => self.route(""),
            24..=27 => format!("{}{}", self.or_odd("*> ", &["   ", " *>", "* ", "*>  ", "é ", "*>é", ""]), self.prefix()),
            28 => format!("{}Displayed  3 routes and 4 total paths", self.or_odd("", &SPACES)),
            29 => self.or_odd("", &SPACES).to_string(),
            30 => self.or_odd("", &["Displayed           192.0.2.1                0             0 64501 64502 i"]).to_string(),
            _ => self.junk(),
        };
        let mut bytes = text.into_bytes();
        if self.random.one_in(20) {
            bytes.truncate(self.random.below(bytes.len() + 1));
        }
        self.end_line(bytes, out);
    }

    /// A route laid out by the columns, with each of its texts now and then at a wrong place.
    fn route(&mut self, prefix: &str) -> String {
        let mut text = self.or_odd("*> ", &["*  ", "   ", "r>i", "* ", "é ", "*>\u{85}", " é ", "*>  "]).to_string();
        text.push_str(prefix);
        let moved = if self.odd() { 1 + self.random.below(2) } else { 0 };
        let [next_hop, metric, local_pref, weight, path] = self.columns.map(|at| at.saturating_sub(moved));
        let hop = self.address();
        self.put(&mut text, next_hop, &hop);
        for (from, to) in [(metric, local_pref), (local_pref, weight), (weight, path)] {
            if self.random.one_in(2) {
                let number = self.number();
                let right = to.saturating_sub(number.len() + 1).max(from);
                let at = if self.odd() { from } else { right };
                self.put(&mut text, at, &number);
            }
            if self.odd() && self.odd() {
                return text;
            }
        }
        let mut at = path;
        for _ in 0..self.random.below(6) {
            let plain = (64_496 + self.random.below(16)).to_string();
            let token = self.or_odd(&plain, &TOKENS).to_string();
            self.put(&mut text, at, &token);
            text.push_str(self.space());
            at = text.len();
        }
        let end = self.random.pick(&["i", "e", "?"]);
        let end = self.or_odd(end, &["", "i i", "i x", "ie"]);
        self.put(&mut text, at, end);
        text
    }

    /// Puts a word at a place of the line, or behind what already stands there.
    fn put(&mut self, text: &mut String, at: usize, word: &str) {
        let at = if self.odd() && self.odd() { at + 1 } else { at };
        pad(text, at);
        if text.len() > at && !text.ends_with(' ') && !self.odd() {
            text.push(' ');
        }
        text.push_str(word);
    }

    /// Ends a line, now and then after odd characters or bytes were put in.
    fn end_line(&mut self, mut bytes: Vec<u8>, out: &mut Vec<u8>) {
        if self.odd() && self.odd() {
            let what = self.random.pick(&CHARACTERS).as_bytes();
            self.insert(&mut bytes, what);
        }
        if self.random.one_in(120) {
            let what = self.random.pick(&UNREADABLE);
            self.insert(&mut bytes, what);
        }
        bytes.extend(self.or_odd("", &SPACES).as_bytes());
        out.extend(bytes);
        out.extend(self.or_odd("\n", &["\r\n", " \n"]).as_bytes());
    }

    /// Puts bytes in at a place of the line, or over as many bytes there, so that what follows keeps its place.
    fn insert(&mut self, bytes: &mut Vec<u8>, what: &[u8]) {
        let at = self.random.below(bytes.len() + 1);
        let end = if self.random.one_in(2) { at } else { (at + what.len()).min(bytes.len()) };
        bytes.splice(at..end, what.iter().copied());
    }
}

fn pad(text: &mut String, len: usize) {
    while text.len() < len {
        text.push(' ');
    }
}

/// A copy with some bytes changed, a stretch left out or doubled, or its end cut off.
pub fn damaged(random: &mut Random, listing: &[u8]) -> Vec<u8> {
    let mut bytes = listing.to_vec();
    for _ in 0..1 + random.below(3) {
        if bytes.is_empty() {
            break;
        }
        let at = random.below(bytes.len());
        let end = (at + 1 + random.below(12)).min(bytes.len());
        match random.below(8) {
            0 | 1 => bytes[at] ^= 1 << random.below(8),
            2 => bytes[at] = random.word() as u8,
            3 => drop(bytes.drain(at..end)),
            4 => {
                let stretch = bytes[at..end].to_vec();
                bytes.splice(at..at, stretch);
            }
            5 => bytes.truncate(at),
            6 => bytes[at] = b' ',
            _ => bytes[at] = b'\n',
        }
    }
    bytes
}
