//! Writers beside each other on one table.

use crate::c::{careful, tuned};
use crate::decoding::{table_of, CAREFUL, LIBRARY, TUNED};
use crate::floors;
use crate::measure::{Case, Section, Series};
use crate::mixes::{values_of, Message, Mix, BINARIES, MIXES, SIZES};
use crate::timing::Contender;
use conformance::library::{self, Written};
use conformance::model::rows::Table;
use std::hint::black_box;

const NOTES: &str = "\
The table that the decoder made is judged, measured and written; the scratch, a word for each row, is cleared in the call. No heap. \
MB/s are of the text that is written. Both variants of C judge and measure in one pass over the rows, then walk. \
The floor copies as many bytes as the text has.";

/// A writer with the C interface's contract.
type Writer = fn(Table, &mut [u32], &mut [u8]) -> Written;

const WRITERS: [(&str, Writer); 3] = [
    (LIBRARY, library::write),
    (CAREFUL, careful::write),
    (TUNED, tuned::write),
];

/// Sizes for the binaries of 64 KiB: one, four and fifteen of them.
const BINARY_SIZES: [usize; 3] = [60 << 10, 250 << 10, 950 << 10];

pub fn section() -> Section {
    let mut series: Vec<Series> = MIXES.iter().map(|mix| one(mix, SIZES)).collect();
    series.push(one(&BINARIES, BINARY_SIZES));
    Section {
        title: "Writing",
        units: "values",
        size: "bytes of text",
        notes: NOTES,
        every_size: false,
        series,
    }
}

fn one(mix: &Mix, sizes: [usize; 3]) -> Series {
    let case = |size| case(&mix.message(size));
    Series {
        name: mix.name.to_string(),
        cases: sizes.map(case).into(),
    }
}

fn case(message: &Message) -> Case {
    let (made, text) = (table_of(&message.bytes), message.value.plain());
    let mut contenders = rivals(made.table(), &text);
    contenders.push(floors::copy(&text));
    Case::of(text.len(), values_of(&message.value), contenders)
}

/// The library and the two variants of C on a table with this text, each in buffers of its own, once all have written it.
pub fn rivals<'a>(table: Table<'a>, text: &[u8]) -> Vec<Contender<'a>> {
    WRITERS
        .iter()
        .for_each(|(name, writer)| check(name, *writer, table, text));
    let with = |(name, writer): (&'static str, Writer)| {
        let (mut scratch, mut output) = buffers(table, text.len());
        Contender::new(name, text.len(), move || {
            black_box(writer(black_box(table), &mut scratch, &mut output));
        })
    };
    WRITERS.map(with).into()
}

fn buffers(table: Table, text: usize) -> (Vec<u32>, Vec<u8>) {
    (vec![1; table.used as usize], vec![1; text])
}

fn check(name: &str, writer: Writer, table: Table, text: &[u8]) {
    let (mut scratch, mut output) = buffers(table, text.len());
    let answer = writer(table, &mut scratch, &mut output);
    assert_eq!(
        (answer.number, answer.bytes),
        (0, text.len() as u64),
        "{name}"
    );
    assert!(output == text, "{name}: another text");
    assert!(scratch.iter().all(|&word| word == 0), "{name}: not cleared");
}
