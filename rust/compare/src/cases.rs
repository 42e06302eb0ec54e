//! What is asked: every short text over a few characters, at each place of a listing where the reading depends on it, and listings
//! made from a seed, plain, odd and damaged.

use listings::{damaged, odd, table, Random, HEADER};

#[derive(Clone, Copy, PartialEq, Debug)]
pub enum Question {
    /// Whether it looks like a table.
    Detect,
    /// What opening reads: the columns, the peer, where the body starts.
    Header,
    /// The elements at a timestamp.
    Elements(i64),
}

pub struct Case {
    pub question: Question,
    pub text: Vec<u8>,
}

impl Case {
    pub fn question_into(&self, line: &mut Vec<u8>) {
        line.clear();
        match self.question {
            Question::Detect => line.extend(b"detect "),
            Question::Header => line.extend(b"header "),
            Question::Elements(seconds) => line.extend(format!("elems_on {seconds} ").as_bytes()),
        }
        if self.text.is_empty() {
            line.push(b'-');
        }
        for byte in &self.text {
            line.extend([b"0123456789abcdef"[usize::from(byte >> 4)], b"0123456789abcdef"[usize::from(byte & 15)]]);
        }
        line.push(b'\n');
    }
}

pub type Cases = Box<dyn Iterator<Item = Case> + Send>;

/// Each sequence of up to `most` of these words, joined; the empty one first.
fn texts(words: &'static [&'static str], most: u32) -> impl Iterator<Item = String> + Send {
    (0..=most).flat_map(move |len| {
        (0..words.len().pow(len)).map(move |number| {
            let mut rest = number;
            let mut text = String::new();
            for _ in 0..len {
                text.push_str(words[rest % words.len()]);
                rest /= words.len();
            }
            text
        })
    })
}

/// Lines as the body of listings, 300 to a listing. Each stands between a route with a prefix and one without, so that what it
/// leaves as the remembered prefix shows.
fn bodies(
    header: &'static str,
    before: &'static str,
    after: &'static str,
    lines: impl Iterator<Item = String> + Send,
) -> impl Iterator<Item = Case> + Send {
    let mut lines = lines.peekable();
    std::iter::from_fn(move || {
        lines.peek()?;
        let mut text = header.to_string();
        for line in lines.by_ref().take(300) {
            text.push_str(&format!("{before}\n{line}\n{after}\n"));
        }
        Some(Case { question: Question::Elements(1709251200), text: text.into_bytes() })
    })
}

const NARROW: &str = "       Next Hop Metric LocPrf Weight Path\n";
const NARROW_BEFORE: &str = "*> ::/9::1       1";
const NARROW_AFTER: &str = "*      ::2       1";

/// A line's first bytes, where Next Hop is at 7 and Metric at 16: prefixes, wrapped prefixes, next hops, and characters across the
/// columns' edges. The text stands alone, with a metric, and with a next hop and a metric.
pub fn fronts(most: u32) -> Cases {
    const PLACES: [&str; 6] = [" ", ":", "/", "0", "9", "é"];
    let lines = texts(&PLACES, most).flat_map(|text| {
        let alone = format!("*> {text}");
        let next_hop = padded(&alone, 7) + "::3";
        [padded(&alone, 16) + " 1", padded(&next_hop, 16) + " 1", alone]
    });
    Box::new(bodies(NARROW, NARROW_BEFORE, NARROW_AFTER, lines))
}

/// Spaces behind a text up to a byte's place.
fn padded(text: &str, at: usize) -> String {
    format!("{text}{}", " ".repeat(at.saturating_sub(text.len())))
}

const BEFORE: &str = "*> 198.51.100.0/24  192.0.2.1                0             0 64501 64502 i";
const AFTER: &str = "*                   192.0.2.2                     150      0 64503 64502 i";

/// The bytes from Metric on, or from before it.
pub fn numbers(most: u32) -> Cases {
    const PLACES: [&str; 7] = [" ", "+", "-", "0", "9", "é", "\u{a0}"];
    let lines = texts(&PLACES, most)
        .flat_map(|text| [39, 40, 44, 47, 50].map(|at| padded("*> 203.0.113.0/24   192.0.2.3", at) + &text + "      7 i"));
    Box::new(bodies(HEADER, BEFORE, AFTER, lines))
}

/// The bytes from Path on, or from before it.
pub fn paths(most: u32) -> Cases {
    const PLACES: [&str; 8] = [" ", "7", "i", "e", "?", "+", "\u{85}", "{"];
    let lines = texts(&PLACES, most)
        .flat_map(|text| [60, 61].map(|at| padded("*> 203.0.113.0/24   192.0.2.3                              0", at) + &text));
    Box::new(bodies(HEADER, BEFORE, AFTER, lines))
}

/// Lines of column names.
pub fn column_lines(most: u32) -> Cases {
    const WORDS: [&str; 7] = ["Next ", "Hop ", "Next Hop ", "Metric ", "LocPrf ", "Weight ", "Path "];
    let few = texts(&WORDS, most);
    let named = texts(&[" ", "\t", "\u{b}", "\u{a0}", "x", "é", "\r"], most.saturating_sub(2)).flat_map(|gap| {
        [
            format!("Next{gap}Hop Metric LocPrf Weight Path"),
            format!("Next Hop{gap}Metric LocPrf Weight Path"),
            format!("Next Hop Metric LocPrf Weight{gap}Path"),
            format!("{gap}Next Hop Metric LocPrf Weight Path{gap}"),
        ]
    });
    Box::new(few.chain(named).map(|text| Case { question: Question::Header, text: text.into_bytes() }))
}

/// Lines above the column header.
pub fn preambles(most: u32) -> Cases {
    const WORDS: [&str; 9] =
        ["BGP table version is ", "Default local pref", "local router ID is ", "local AS ", ",", " ", "5", "1.2.3.4", "\n"];
    Box::new(texts(&WORDS, most).map(|text| {
        let text = format!("{text}\nNext Hop Metric LocPrf Weight Path\n");
        Case { question: Question::Header, text: text.into_bytes() }
    }))
}

/// Texts with a mark of a table, or nearly, somewhere about byte 128.
pub fn detections(seed: u64, texts: usize) -> Cases {
    let mut random = Random::new(seed);
    Box::new((0..texts).map(move |_| {
        let mark = random.pick(&["BGP table", "Next Hop", "Status codes:", "BGP tabl", "next hop", "Status codes"]);
        let letter = random.pick(&["x", "x", "é", "€", " ", "\u{7f}"]);
        let before = random.below(140) / letter.len();
        let mut text = letter.repeat(before).into_bytes();
        text.extend(mark.as_bytes());
        text.extend(letter.repeat(random.below(60)).as_bytes());
        if random.one_in(4) {
            text = damaged(&mut random, &text);
        }
        Case { question: Question::Detect, text }
    }))
}

/// Listings from a seed: half of them odd, the other half damaged copies of odd and of plain ones.
pub fn random(seed: u64, listings: usize) -> Cases {
    let mut random = Random::new(seed);
    Box::new((0..listings).map(move |i| {
        let text = match i % 4 {
            0 | 1 => odd(&mut random),
            2 => {
                let listing = odd(&mut random);
                damaged(&mut random, &listing)
            }
            _ => {
                let listing = table(&mut random, 4000);
                damaged(&mut random, &listing)
            }
        };
        let seconds = random.pick(&[0, 1709251200, -1, -62167219200, 253402300799]);
        let question = if random.one_in(8) { Question::Header } else { Question::Elements(seconds) };
        Case { question, text }
    }))
}
