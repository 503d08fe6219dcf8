//! Messages of every sort: trees spelled in many ways, items strung together, and both of them damaged.

mod damage;
mod items;
mod spelling;
mod value;

pub use damage::{damage, from_alphabet};
pub use items::strung;
pub use spelling::spell;
pub use value::{Value, WORD_NAMES};

use crate::header::{REGISTER_WORDS, ROW_WORDS};
use crate::model::decode::Lent;
use crate::noise::Noise;

/// Bytes that name no register: operators, marks and white space of 01. The digits are the others.
const NO_REGISTER: &[u8] = b"-%\"~'`{}#&,$> \t\n\r";

/// A register's name; a few often, so that registers are stored anew and pushed again.
fn register(noise: &mut Noise) -> u8 {
    if !noise.once_in(4) {
        return *noise.pick(b"abcdZ\\");
    }
    loop {
        let byte = noise.byte();
        if !NO_REGISTER.contains(&byte) && !byte.is_ascii_digit() {
            return byte;
        }
    }
}

/// A message of so many bytes: a head, one byte as often as it takes, and a tail.
pub fn filled(bytes: usize, head: &[u8], byte: u8, tail: &[u8]) -> Vec<u8> {
    let middle = vec![byte; bytes - head.len() - tail.len()];
    [head, &middle, tail].concat()
}

/// A message of any of the sorts, sound or not.
pub fn any(noise: &mut Noise) -> Vec<u8> {
    let mut message = match noise.below(12) {
        0..=3 => {
            let most = if noise.once_in(40) { 400 } else { 40 };
            let size = 1 + noise.below(most);
            let value = Value::random(noise, size);
            spell(noise, &value)
        }
        4..=9 => strung(noise),
        _ => from_alphabet(noise),
    };
    if noise.once_in(2) {
        damage(noise, &mut message);
    }
    message
}

/// Lengths for the four tables: mostly enough for a message of so many bytes, otherwise too little of something.
pub fn lengths(noise: &mut Noise, message_bytes: usize) -> Lent {
    let registers = match noise.below(50) {
        0 => noise.below(REGISTER_WORDS),
        1 => REGISTER_WORDS - 1,
        _ => REGISTER_WORDS + noise.below(9),
    };
    Lent {
        rows: length(noise, 2 * message_bytes * ROW_WORDS, 4 * ROW_WORDS),
        stack: length(noise, message_bytes, 3),
        marks: length(noise, message_bytes, 2),
        registers,
    }
}

/// Mostly `enough` or a little more; else very few, or any length below.
fn length(noise: &mut Noise, enough: usize, few: usize) -> usize {
    match noise.below(10) {
        0 => noise.below(few),
        1 => noise.below(enough + 1),
        _ => enough + noise.below(9),
    }
}
