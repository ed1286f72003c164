//! Texts with a byte too few, too many or another one, and texts that end too early.

use crate::random::Random;

use super::telling::WORDS;

/// The seed of the words drawn.
const SEED: u64 = 22;

/// How many texts of drawn words there are, and how many words one has at most.
const SALADS: u64 = 60;
const MOST_WORDS: usize = 12;

pub(super) fn texts() -> Vec<Vec<u8>> {
    let good = WORDS.concat().into_bytes();
    let mut texts = cuts(&good);
    for at in 0..good.len() {
        texts.push([&good[..at], &good[at + 1..]].concat());
        texts.push([&good[..=at], &good[at..]].concat());
        texts.extend(others(at).map(|other| replaced(&good, at, other)));
    }
    texts.extend((0..SALADS).map(|index| salad(&mut Random::of_index(SEED, index))));
    texts
}

/// The text cut behind each byte, and behind none.
fn cuts(text: &[u8]) -> Vec<Vec<u8>> {
    (0..=text.len()).map(|length| text[..length].to_vec()).collect()
}

fn replaced(text: &[u8], at: usize, byte: u8) -> Vec<u8> {
    let mut text = text.to_vec();
    text[at] = byte;
    text
}

/// What the byte at a place is replaced by: bytes that mean something elsewhere, in turn, and one that never does.
fn others(at: usize) -> [u8; 4] {
    const SIGNS: &[u8] = b"()[]|,:#<>.-/R10a \n";
    let turn = |step: usize| SIGNS[(step * at + step) % SIGNS.len()];
    [turn(1), turn(7), turn(11), [0, b'"', 0x80, 0xff][at % 4]]
}

/// Some words of the grammar in any order behind a `[`.
fn salad(random: &mut Random) -> Vec<u8> {
    let count = random.between(1, MOST_WORDS);
    let words: Vec<&str> = (0..count).map(|_| random.pick(&WORDS)).collect();
    format!("[{}", words.join(random.pick(&["", " "]))).into_bytes()
}
