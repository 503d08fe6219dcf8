//! Damage to messages, and bytes that were never one.

use crate::noise::Noise;

/// Bytes with a meaning, and some without.
const ALPHABET: &[u8] = b"'\"`%~\\{}#&>$- \n0123456789abc,\x00\xff";

fn drawn(noise: &mut Noise) -> u8 {
    match noise.below(4) {
        0 => noise.byte(),
        _ => *noise.pick(ALPHABET),
    }
}

/// A few bytes of the alphabet, or of all bytes.
pub fn from_alphabet(noise: &mut Noise) -> Vec<u8> {
    let count = noise.below(24);
    (0..count).map(|_| drawn(noise)).collect()
}

/// One to three changes.
pub fn damage(noise: &mut Noise, message: &mut Vec<u8>) {
    for _ in 0..=noise.below(3) {
        change(noise, message);
    }
}

fn change(noise: &mut Noise, message: &mut Vec<u8>) {
    let at = noise.below(message.len() + 1);
    let end = at + noise.below(message.len() - at + 1).min(8);
    match noise.below(7) {
        0 => message.truncate(at),
        1 => message.insert(at, drawn(noise)),
        2 if at < message.len() => message[at] = drawn(noise),
        3 if at < message.len() => drop(message.remove(at)),
        4 => drop(message.drain(at..end)),
        5 => message.extend_from_within(at..end),
        _ => {
            let again = message[at..end].to_vec();
            let place = noise.below(message.len() + 1);
            message.splice(place..place, again);
        }
    }
}
