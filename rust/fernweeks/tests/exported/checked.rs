//! The exported calls, each held to the plain reader's answer: the number, and every byte of what was lent.

use crate::plain::{self, Answer};
use fernweeks::calls;

/// A list that a call may write to, filled so that each written byte shows.
pub fn lent(len: usize) -> Vec<u8> {
    (0..len).map(|i| 0xa0 ^ (i as u8).wrapping_mul(29)).collect()
}

pub fn places(len: usize) -> Vec<u32> {
    (0..len).map(|i| 0xa5a5_0000 ^ i as u32).collect()
}

/// The bytes of a state, in a list of just that length.
pub fn bytes(state: plain::State) -> Vec<u8> {
    state.to_bytes().to_vec()
}

fn spelled(state: &[u8]) -> Option<plain::State> {
    plain::State::from_bytes(state[..128].try_into().expect("128 bytes"))
}

fn front<T: Copy>(written: &[T], list: &[T]) -> Vec<T> {
    [written, &list[written.len()..]].concat()
}

pub fn open(text: &[u8], timestamp: f64, state: &mut [u8]) -> u32 {
    let before = state.to_vec();
    let expected = match plain::open(text, timestamp) {
        _ if before.len() < 128 => (9, before),
        Ok(opened) => (0, front(&opened.to_bytes(), &before)),
        Err((number, _)) => (number, before),
    };
    let number = calls::open(text, timestamp, state);
    assert_eq!((number, &*state), (expected.0, &*expected.1), "open {timestamp} on {:?}", text.escape_ascii().to_string());

    let line = plain::open(text, 0.0).err().map_or(0, |(_, line)| line);
    assert_eq!(calls::line_at_fault(text), line, "the line at fault in {:?}", text.escape_ascii().to_string());
    number
}

pub fn next(state: &mut [u8], part: &[u8], asns: &mut [u32], element: &mut [u8]) -> u32 {
    let before = (state.to_vec(), asns.to_vec(), element.to_vec());
    let mut expected = before.clone();
    let answer = if state.len() < 128 || element.len() < 176 {
        9
    } else if let Some(here) = spelled(state) {
        match plain::next(here, part, asns.len()) {
            (Answer::Element(e), after) => {
                expected = (front(&after.to_bytes(), &before.0), front(&e.asns, &before.1), front(&e.to_bytes(), &before.2));
                0
            }
            (Answer::End, after) => {
                expected.0 = front(&after.to_bytes(), &before.0);
                255
            }
            (Answer::Refused(number), _) => number,
        }
    } else {
        5
    };
    let number = calls::next(state, part, asns, element);
    assert_eq!(
        (number, &*state, &*asns, &*element),
        (answer, &*expected.0, &*expected.1, &*expected.2),
        "next from {:?} in {:?} with {} places",
        before.0,
        part.escape_ascii().to_string(),
        asns.len()
    );
    number
}

pub fn turn(state: &mut [u8]) -> u32 {
    let before = state.to_vec();
    let expected = if before.len() < 128 {
        (9, before.clone())
    } else if let Some(here) = spelled(state) {
        (0, front(&plain::turn(here).to_bytes(), &before))
    } else {
        (5, before.clone())
    };
    let number = calls::turn(state);
    assert_eq!((number, &*state), (expected.0, &*expected.1), "turn of {before:?}");
    number
}

/// Opens a text and reads it to its end or to a refusal; how many elements it has, and the last answer.
pub fn read(text: &[u8]) -> (usize, u32) {
    let (mut state, mut asns, mut element) = (lent(130), places(40), lent(180));
    let mut answer = open(text, 1709251200.0, &mut state);
    let mut elements = 0;
    while answer == 0 {
        answer = next(&mut state, text, &mut asns, &mut element);
        elements += usize::from(answer == 0);
    }
    (elements, answer)
}
