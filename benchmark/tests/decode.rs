//! The C decoders beside the library: answers, and every word of every table, on any bytes and lengths.

use benchmark::c::{careful, tuned};
use benchmark::decoding::{check, lent_for};
use benchmark::mixes::MIXES;
use conformance::check::{shown, PROGRAM};
use conformance::guarded::{Guarded, Rest};
use conformance::header::{MESSAGE_BYTES, ROWS, ROW_WORDS};
use conformance::library::{self, Decoded, Tables};
use conformance::messages::{any, filled, lengths};
use conformance::model::decode::Lent;
use conformance::noise::Noise;
use std::collections::BTreeSet;

type Decoder = fn(&[u8], Tables) -> Decoded;

const DECODERS: [(&str, Decoder); 2] = [("careful C", careful::decode), ("tuned C", tuned::decode)];

/// Lent tables, full of noise before a call.
struct Lending {
    tables: [Guarded<'static, u32>; 4],
}

impl Lending {
    fn new(seed: u64, lent: Lent) -> Lending {
        let noise = &mut Noise::new(seed);
        let lengths = [lent.rows, lent.stack, lent.marks, lent.registers];
        Lending {
            tables: lengths.map(|length| Guarded::noisy(noise, length)),
        }
    }

    fn call(&mut self, decoder: Decoder, message: &[u8]) -> Decoded {
        let [rows, stack, marks, registers] = self.tables.each_mut().map(Guarded::lent_mut);
        let tables = Tables {
            rows,
            stack,
            marks,
            registers,
        };
        decoder(message, tables)
    }

    /// Where a word is not as the other has it, or one outside what was lent was written.
    fn difference(&self, other: &Lending) -> Option<String> {
        let pairs = self.tables.iter().zip(&other.tables);
        let names = ["rows", "stack", "marks", "registers"];
        let mut named = names.iter().zip(pairs);
        named.find_map(|(name, (one, two))| one.difference(name, two.lent(), Rest::AsBefore))
    }
}

/// The answer's number, where library, careful C and tuned C agree.
fn agree(seed: u64, message: &[u8], lent: Lent) -> u32 {
    let mut ours = Lending::new(seed, lent);
    // An allocation of its own, so that a checker of memory sees a read past its end.
    let message = &message.to_vec();
    let due = ours.call(library::decode, message);
    for (name, decoder) in DECODERS {
        let mut theirs = Lending::new(seed, lent);
        let got = theirs.call(decoder, message);
        let what = || format!("{name}, seed {seed}: {} in {lent:?}", shown(message));
        assert_eq!(got, due, "{}", what());
        assert_eq!(theirs.difference(&ours), None, "{}", what());
    }
    due.number
}

#[test]
fn messages_of_every_sort() {
    let mut met = BTreeSet::new();
    for seed in 0..40_000 {
        let noise = &mut Noise::new(seed);
        let message = any(noise);
        let lent = lengths(noise, message.len());
        met.insert(agree(seed, &message, lent));
    }
    let due: BTreeSet<u32> = [0].into_iter().chain(2..=14).collect();
    assert_eq!(met, due);
}

#[test]
fn mixes() {
    for mix in MIXES {
        let message = mix.message(4 << 10).bytes;
        let lent = lent_for(&message);
        check(&message, lent);
        for seed in 0..300 {
            let noise = &mut Noise::new(seed);
            let mut damaged = message.clone();
            let at = noise.below(damaged.len());
            damaged[at] = noise.byte();
            agree(seed, &damaged, lent);
        }
        for end in (0..message.len()).step_by(41) {
            agree(0, &message[..end], lent);
        }
    }
}

/// Enough for one value.
const SMALL: Lent = Lent {
    rows: 16,
    stack: 4,
    marks: 4,
    registers: 256,
};

/// Texts of every length around those where the search changes its way, escapes and ends at every place.
#[test]
fn texts() {
    for mark in *b"'\"`%" {
        for length in (0..20).chain(60..80) {
            let whole = filled(length + 4, &[b'#', mark], b'x', &[mark, b'$']);
            agree(0, &whole, SMALL);
            for at in 2..whole.len() {
                agree(0, &whole[..at], SMALL);
                for escape in [[b'\\', b'\\'], [b'\\', mark], [b'\\', b'x'], [b'x', mark]] {
                    let mut escaped = whole.clone();
                    escaped.splice(at..at, escape);
                    agree(0, &escaped, SMALL);
                }
            }
        }
    }
}

/// Long texts with several escapes, whole, cut and spoilt.
#[test]
fn long_texts() {
    for seed in 0..3_000 {
        let noise = &mut Noise::new(seed);
        let mark = *noise.pick(b"'\"`%");
        let mut message = vec![b'#', mark];
        for _ in 0..noise.below(6) {
            message.extend(vec![b'x'; noise.below(200)]);
            message.extend([b'\\', *noise.pick(&[b'\\', mark, mark])]);
        }
        message.extend(vec![b'x'; noise.below(90)]);
        message.extend([mark, b'$']);
        agree(seed, &message, SMALL);
        agree(seed, &message[..noise.below(message.len())], SMALL);
        let at = noise.below(message.len());
        message[at] = *noise.pick(&[b'\\', mark, b'y']);
        agree(seed, &message, SMALL);
    }
}

#[test]
fn integers() {
    let ends = [i64::MAX as u64, i64::MIN as u64, u64::MAX].map(u128::from);
    let near = ends.into_iter().flat_map(|end| end - 9..end + 12);
    let powers = (0..30).map(|digits| 10_u128.pow(digits));
    for number in near.chain(powers) {
        for text in [
            format!("{number}"),
            format!("{:040}", number),
            format!("{}", 7 * number),
        ] {
            for (head, tail) in [
                ("", ""),
                ("", " $"),
                ("", "$"),
                ("-", ""),
                ("-", "\t$"),
                ("-", "$"),
            ] {
                agree(0, format!("{head}{text}{tail}").as_bytes(), SMALL);
            }
        }
    }
}

#[test]
fn bounds() {
    let blank = |bytes| filled(bytes, b"1", b' ', b"$");
    assert_eq!(agree(0, &blank(MESSAGE_BYTES), PROGRAM), 0);
    assert_eq!(agree(0, &blank(MESSAGE_BYTES + 1), PROGRAM), 1);
    let more = Lent {
        rows: (ROWS + 9) * ROW_WORDS + 3,
        stack: 4_099,
        marks: 259,
        registers: 300,
    };
    for (byte, number) in [(b'#', 13), (b'{', 14)] {
        let message = filled(70_000, b"1", byte, b"$");
        assert_eq!(agree(0, &message, more), number);
    }
    let rows = "#".to_string() + &"1&".repeat(40_000) + "$";
    assert_eq!(agree(0, rows.as_bytes(), more), 12);
}
