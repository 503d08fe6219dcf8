//! The C writers and readers of words, and the comparison by sorting, beside the library, on tables sound and not.

use benchmark::c::{careful, tuned};
use benchmark::mixes::MIXES;
use benchmark::{decoding, sorted};
use conformance::check::shown;
use conformance::guarded::{Guarded, Rest};
use conformance::header::MESSAGE_BYTES;
use conformance::library::{self, Word, Written};
use conformance::messages::{any, spell, Value};
use conformance::model::rows::Table;
use conformance::noise::Noise;
use conformance::tables::Made;
use std::collections::BTreeSet;

type Writer = fn(Table, &mut [u32], &mut [u8]) -> Written;
type Reader = fn(Table, u64) -> Word;

const WRITERS: [(&str, Writer); 2] = [("careful C", careful::write), ("tuned C", tuned::write)];
const READERS: [(&str, Reader); 2] = [
    ("careful C", careful::read_word),
    ("tuned C", tuned::read_word),
];

/// A writer's answer, and what it left in buffers that were full of noise.
fn written(
    writer: Writer,
    seed: u64,
    table: Table,
    [scratch, output]: [usize; 2],
) -> (Written, Guarded<'static, u32>, Guarded<'static, u8>) {
    let noise = &mut Noise::new(seed);
    let mut scratch = Guarded::noisy(noise, scratch);
    let mut output = Guarded::noisy(noise, output);
    let answer = writer(table, scratch.lent_mut(), output.lent_mut());
    (answer, scratch, output)
}

/// The answer's number, where library, careful C and tuned C agree on it, on the scratch and on the output.
fn agree(seed: u64, table: Table, lengths: [usize; 2]) -> u32 {
    let (due, due_scratch, due_output) = written(library::write, seed, table, lengths);
    for (name, writer) in WRITERS {
        let (got, scratch, output) = written(writer, seed, table, lengths);
        let what = || format!("{name}, seed {seed}: {table:?} in {lengths:?}");
        assert_eq!(got, due, "{}", what());
        let scratch = scratch.difference("scratch", due_scratch.lent(), Rest::AsBefore);
        assert_eq!(scratch, None, "{}", what());
        let output = output.difference("output", due_output.lent(), Rest::AsBefore);
        assert_eq!(output, None, "{}", what());
    }
    due.number
}

/// Room for scratch and output: mostly enough, otherwise too little.
fn room(noise: &mut Noise, used: u32) -> [usize; 2] {
    let used = used.min(70_000) as usize;
    let scratch = if noise.once_in(12) {
        noise.below(used + 1)
    } else {
        used + noise.below(4)
    };
    let output = if noise.once_in(4) {
        noise.below(300)
    } else {
        1 << 14
    };
    [scratch, output]
}

/// A table that no decoder made, damaged or not.
fn any_table(noise: &mut Noise) -> Made {
    let mut made = Made::random(noise);
    if noise.once_in(2) {
        made.damage(noise);
    }
    made
}

#[test]
fn writers_on_any_table() {
    let mut met = BTreeSet::new();
    for seed in 0..20_000 {
        let noise = &mut Noise::new(seed);
        let made = any_table(noise);
        let lengths = room(noise, made.used);
        met.insert(agree(seed, made.table(), lengths));
    }
    assert_eq!(met, BTreeSet::from([0, 2, 15, 16]));
}

#[test]
fn writers_on_decoded_messages() {
    let mut accepted = 0;
    for seed in 0..15_000 {
        let noise = &mut Noise::new(seed);
        let message = any(noise);
        let Some(made) = decoded(&message) else {
            continue;
        };
        let lengths = room(noise, made.used);
        agree(seed, made.table(), lengths);
        accepted += 1;
    }
    assert!(accepted > 2_500);
}

#[test]
fn writers_on_mixes() {
    for mix in MIXES {
        let message = mix.message(8 << 10);
        let made = decoded(&message.bytes).expect("a mix is accepted");
        let text = message.value.plain();
        let used = made.used as usize;
        assert_eq!(agree(0, made.table(), [used, text.len() - 1]), 15);
        assert_eq!(agree(0, made.table(), [used, text.len()]), 0);
        assert_eq!(agree(0, made.table(), [used - 1, text.len()]), 2);
    }
}

#[test]
fn messages_over_the_bound() {
    let message = vec![b' '; MESSAGE_BYTES + 1];
    let rows = [5, 0, 0, 0];
    let table = |bytes| Table {
        message: &message[..bytes],
        rows: &rows,
        used: 1,
        root: 0,
    };
    for (bytes, number) in [(MESSAGE_BYTES, 0), (MESSAGE_BYTES + 1, 1)] {
        assert_eq!(agree(0, table(bytes), [1, 9]), number);
        read_alike(table(bytes), 0);
    }
}

/// Texts that double with every round, up to 2^60 bytes: refused by their measure.
#[test]
fn texts_that_no_memory_holds() {
    for rounds in [10, 25, 31, 32, 60] {
        let message = ["1 >a", &"{aa}>a".repeat(rounds), "a$"].concat();
        let made = decoded(message.as_bytes()).expect("it is accepted");
        let number = agree(0, made.table(), [made.used as usize, 1 << 14]);
        assert_eq!(number, if rounds == 10 { 0 } else { 15 });
    }
}

/// The table that the library makes of a message, where it accepts it.
fn decoded(message: &[u8]) -> Option<Made> {
    let mut buffers = decoding::Buffers::new(conformance::check::LARGEST);
    let answer = library::decode(message, buffers.lend());
    let used = answer.rows as usize * 4;
    (answer.number == 0).then(|| Made {
        message: message.to_vec(),
        rows: buffers.rows[..used].to_vec(),
        used: answer.rows,
        root: answer.root,
    })
}

fn read_alike(table: Table, k: u64) -> u32 {
    let due: Word = library::read_word(table, k);
    for (name, reader) in READERS {
        assert_eq!(reader(table, k), due, "{name}: {table:?}, {k}");
    }
    due.number
}

#[test]
fn words() {
    let mut met = BTreeSet::new();
    for seed in 0..20_000 {
        let noise = &mut Noise::new(seed);
        let mut made = any_table(noise);
        made.ask_tag(noise);
        for k in [0, 1, noise.below(9) as u64, noise.draw()] {
            met.insert(read_alike(made.table(), k));
        }
    }
    assert_eq!(met, BTreeSet::from([0, 16, 18, 19, 20]));
}

/// Whether two values are equal, where library and sorting agree.
fn alike(noise: &mut Noise, one: &Value, other: &Value) -> bool {
    let messages = [one, other].map(|value| spell(noise, value));
    let [a, b] = messages
        .each_ref()
        .map(|message| decoded(message).expect("it is accepted"));
    let mut scratch = vec![0; (a.used + b.used) as usize];
    let compared = library::compare(a.table(), b.table(), &mut scratch);
    let found = sorted::equal(a.table(), b.table());
    let what = messages.each_ref().map(|message| shown(message));
    assert_eq!(
        (compared.number, compared.equal),
        (0, u32::from(found)),
        "{what:?}"
    );
    found
}

#[test]
fn comparisons() {
    for seed in 0..1_000 {
        let noise = &mut Noise::new(seed);
        let size = 1 + noise.below(30);
        let value = Value::random(noise, size);
        assert!(alike(noise, &value, &value), "seed {seed}");
        let mut other = value.clone();
        other.change_leaf(noise);
        assert!(!alike(noise, &value, &other), "seed {seed}");
        let mut other = value.clone();
        other.change_kind(noise);
        alike(noise, &value, &other);
    }
}
