//! States of random bytes: refused with everything as it was, or answered as the plain reader does, and never a crash.

use crate::checked::{lent, next, places, turn};
use crate::plain;
use listings::{odd, Random, EXAMPLE};

/// A number for a word of a state: one that a field takes, one just beyond, or anything.
fn word(random: &mut Random) -> u64 {
    match random.below(8) {
        0 => 0,
        1 => 1,
        2 => 2,
        3 => random.below(130) as u64,
        4 => random.below(300) as u64,
        5 => random.word() >> 32,
        6 => random.pick(&[1 << 32, u64::MAX, (1 << 32) - 1, 255, 256, 33, 129, 1 << 63]),
        _ => random.word(),
    }
}

fn put(state: &mut [u8], slot: usize, word: u64) {
    state[8 * slot..8 * slot + 8].copy_from_slice(&word.to_le_bytes());
}

/// A state of the example, behind its header or with a prefix.
fn good(random: &mut Random) -> Vec<u8> {
    let mut state = plain::open(EXAMPLE.as_bytes(), random.below(2_000_000_000) as f64).expect("the example opens");
    for _ in 0..random.below(3) {
        state = plain::next(state, EXAMPLE.as_bytes(), 2).1;
    }
    state.to_bytes().to_vec()
}

fn state(random: &mut Random) -> Vec<u8> {
    let mut state = good(random);
    match random.below(5) {
        0 => state.iter_mut().for_each(|byte| *byte = random.word() as u8),
        1 => (0..16).for_each(|slot| put(&mut state, slot, word(random))),
        2 => {
            let at = random.below(128);
            state[at] ^= 1 << random.below(8);
        }
        3 => put(&mut state, random.below(16), word(random)),
        _ => {
            // columns that rise, near or far, a prefix of any length, and any position
            let mut at = random.below(30) as u64;
            for slot in 0..5 {
                put(&mut state, slot, at);
                at = at.saturating_add(if random.one_in(20) { random.word() } else { 1 + random.below(20) as u64 });
            }
            let kind = random.below(2) as u64;
            put(&mut state, 10, 2);
            put(&mut state, 11, kind);
            put(&mut state, 12, kind * random.word());
            put(&mut state, 13, random.word() >> (32 * (1 - kind)));
            put(&mut state, 14, random.below(140) as u64);
            put(&mut state, 15, random.below(EXAMPLE.len() + 20) as u64);
        }
    }
    state
}

#[test]
fn of_random_bytes() {
    let mut random = Random::new(9);
    let mut answers = [0; 256];
    for _ in 0..200_000 {
        let mut state = state(&mut random);
        let part = if random.one_in(2) { EXAMPLE.as_bytes().to_vec() } else { odd(&mut random) };
        let mut asns = places(random.below(4));
        for _ in 0..4 {
            let number = if random.one_in(4) { turn(&mut state) } else { next(&mut state, &part, &mut asns, &mut lent(176)) };
            answers[number as usize] += 1;
        }
    }
    // each answer but 9 was met
    for number in [0, 5, 6, 7, 255] {
        assert!(answers[number] > 100, "{number} was answered {} times", answers[number]);
    }
}
