//! Decoders beside each other on one message.

use crate::c::{careful, tuned};
use crate::floors;
use crate::measure::{Case, Section, Series};
use crate::mixes::{values_of, Message, Mix, MIXES, SIZES};
use crate::peers;
use crate::timing::Contender;
use conformance::check::LARGEST;
use conformance::header::ROW_WORDS;
use conformance::library::{self, Decoded, Tables};
use conformance::model::decode::{self, Lent};
use conformance::model::forest::Forest;
use conformance::tables::Made;
use std::hint::black_box;

const NOTES: &str = "\
Lent to library, careful C and tuned C alike: the rows that the message needs, rounded up to 64, 4,096 words of stack, 256 marks and 256 registers; \
all of them are cleared in the call, as the contract says. No heap. The model in Rust makes a new forest on the heap at every call. \
jsmn: tokens in an array made once, not cleared, no heap, with parent links; nothing is converted. \
simdjson: DOM, parser and padded text made once, on the heap, not cleared. \
libcbor: items on the heap, made and freed in the call. \
msgpack-c: objects in a zone on the heap, which msgpack_unpack_next frees and makes anew at every call; the result is kept. \
A text has its length in front in CBOR and MessagePack; msgpack-c refers to its bytes without a look at them, libcbor copies them. \
MB/s are of each format's own bytes. The floors are memchr over the message for a byte that is not there, and memset over the rows that are lent.";

const FULL_NOTES: &str = "\
The same message of mixed tuples, once in tables as above and once in full ones of 65,536 rows, all of which are cleared in the call.";

/// A decoder with the C interface's contract.
type Decoder = fn(&[u8], Tables) -> Decoded;

pub const LIBRARY: &str = "library";
pub const CAREFUL: &str = "careful C";
pub const TUNED: &str = "tuned C";

const DECODERS: [(&str, Decoder); 3] = [
    (LIBRARY, library::decode),
    (CAREFUL, careful::decode),
    (TUNED, tuned::decode),
];

/// The tables that a decoder is lent.
pub struct Buffers {
    pub rows: Vec<u32>,
    pub stack: Vec<u32>,
    pub marks: Vec<u32>,
    pub registers: Vec<u32>,
}

impl Buffers {
    /// Tables of some lengths, full of what no decoder leaves there.
    pub fn new(lent: Lent) -> Buffers {
        let full = |words: usize| vec![0xA5A5_A5A5; words];
        Buffers {
            rows: full(lent.rows),
            stack: full(lent.stack),
            marks: full(lent.marks),
            registers: full(lent.registers),
        }
    }

    pub fn lend(&mut self) -> Tables<'_> {
        Tables {
            rows: &mut self.rows,
            stack: &mut self.stack,
            marks: &mut self.marks,
            registers: &mut self.registers,
        }
    }
}

/// Tables for a message: just its rows, rounded up to 64, and of all else the most that is used.
pub fn lent_for(message: &[u8]) -> Lent {
    let used = decode::decode(&mut Forest::new(), message, LARGEST).used as usize;
    Lent {
        rows: used.next_multiple_of(64) * ROW_WORDS,
        ..LARGEST
    }
}

/// The library and the two variants of C, each in tables of its own, once all have decoded the message alike.
pub fn rivals(message: &[u8], lent: Lent) -> Vec<Contender<'_>> {
    check(message, lent);
    let with = |(name, decoder): (&'static str, Decoder)| {
        let mut buffers = Buffers::new(lent);
        Contender::new(name, message.len(), move || {
            black_box(decoder(black_box(message), buffers.lend()));
        })
    };
    DECODERS.map(with).into()
}

/// The independent decoder, with a new forest every time.
fn model(message: &[u8], lent: Lent) -> Contender<'_> {
    Contender::new("model in Rust", message.len(), move || {
        let mut forest = Forest::new();
        black_box(decode::decode(&mut forest, black_box(message), lent));
    })
}

/// All that is timed on a message: the rivals first.
pub fn contenders(message: &Message) -> Vec<Contender<'_>> {
    let lent = lent_for(&message.bytes);
    let mut all = rivals(&message.bytes, lent);
    all.push(model(&message.bytes, lent));
    all.extend(peers::contenders(&message.value));
    all.extend([floors::search(&message.bytes), floors::fill(lent.rows)]);
    all
}

pub fn section() -> Section {
    let case = |mix: &Mix, size| {
        let message = mix.message(size);
        let values = values_of(&message.value);
        Case::of(message.bytes.len(), values, contenders(&message))
    };
    let series = MIXES.iter().map(|mix| Series {
        name: mix.name.to_string(),
        cases: SIZES.map(|size| case(mix, size)).into(),
    });
    Section {
        title: "Decoding",
        units: "values",
        size: "bytes of message",
        notes: NOTES,
        every_size: false,
        series: series.collect(),
    }
}

/// What it costs to clear long tables, on one mix.
pub fn full_section() -> Section {
    let message = MIXES[2].message(SIZES[1]);
    let case = |lent| {
        let values = values_of(&message.value);
        Case::of(message.bytes.len(), values, rivals(&message.bytes, lent))
    };
    let series = |name: &str, lent| Series {
        name: name.to_string(),
        cases: vec![case(lent)],
    };
    Section {
        title: "Decoding, long tables",
        units: "values",
        size: "bytes of message",
        notes: FULL_NOTES,
        every_size: false,
        series: vec![
            series("rows as needed", lent_for(&message.bytes)),
            series("65,536 rows", LARGEST),
        ],
    }
}

/// The table that the library makes of a message, cut to its rows.
pub fn table_of(message: &[u8]) -> Made {
    let mut buffers = Buffers::new(lent_for(message));
    let answer = library::decode(message, buffers.lend());
    assert_eq!(answer.number, 0, "refused at {}", answer.place);
    buffers.rows.truncate(answer.rows as usize * ROW_WORDS);
    Made {
        message: message.to_vec(),
        rows: buffers.rows,
        used: answer.rows,
        root: answer.root,
    }
}

/// Decodes with every decoder and with the model; panics where an answer or a word of a table differs.
pub fn check(message: &[u8], lent: Lent) {
    let due = decode::decode(&mut Forest::new(), message, lent);
    assert_eq!(due.number, 0, "the model refuses at {}", due.place);
    let answer = [due.number, due.place, due.root, due.used];
    for (name, decoder) in DECODERS {
        let mut buffers = Buffers::new(lent);
        let got = decoder(message, buffers.lend());
        assert_eq!(
            [got.number, got.place, got.root, got.rows],
            answer,
            "{name}"
        );
        let (used, past) = buffers.rows.split_at(due.rows.len());
        assert!(used == due.rows, "{name}: other rows");
        let working = [past, &buffers.stack, &buffers.marks, &buffers.registers];
        assert!(
            working.concat().iter().all(|&word| word == 0),
            "{name}: not cleared"
        );
    }
}
