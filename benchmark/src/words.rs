//! Readers of sensor words beside each other on one block.

use crate::c::{careful, tuned, Format, FORMATS};
use crate::decoding::{table_of, CAREFUL, LIBRARY, TUNED};
use crate::measure::{Case, Section, Series};
use crate::timing::Contender;
use conformance::library::{self, Word};
use conformance::model::rows::Table;
use conformance::noise::Noise;
use std::hint::black_box;

const NOTES: &str = "\
A block of 4,096 bytes, read word by word; all readers judge the whole table at every call, as the contract says, and use no working memory. \
The last series has more rows in the table, integers and strings in a list beside the block, and reads 64 words. \
The floor is a plain loop that knows the format, joins bytes by shifts and judges nothing; gcc may make vectors of it.";

const BLOCK: usize = 4_096;

/// The block's tag: its row comes after those of the count and the binary.
const ROW: u32 = 2;

/// Items beside the block in the series on growth, and the words that are read there.
const BESIDE: [usize; 3] = [0, 500, 5_000];
const READ: usize = 64;

pub fn section() -> Section {
    let mut series: Vec<Series> = FORMATS.iter().map(one).collect();
    let growing = &FORMATS[1];
    series.push(Series {
        name: format!("{}, rows beside the block", growing.0),
        cases: BESIDE.map(|beside| case(growing, beside, READ)).into(),
    });
    Section {
        title: "Reading words",
        units: "words",
        size: "rows of the table",
        notes: NOTES,
        every_size: false,
        series,
    }
}

fn one(format: &Format) -> Series {
    Series {
        name: format.0.to_string(),
        cases: vec![case(format, 0, BLOCK / format.1)],
    }
}

/// A message with the block stored away and a list of so many items.
fn message(format: &Format, block: &[u8], items: usize) -> Vec<u8> {
    let mut noise = Noise::new(0x5EED);
    let head = [b"4096~", block, b"~`", format.0.as_bytes(), b"`"].concat();
    if items == 0 {
        return [&head, &b"$"[..]].concat();
    }
    let item = |_| match noise.below(2) {
        0 => format!("{} &", noise.below(100_000)),
        _ => format!("\"reading {}\"&", noise.below(1_000)),
    };
    let list: String = (0..items).map(item).collect();
    [&head, &b">b#"[..], list.as_bytes(), b"$"].concat()
}

fn case(format: &Format, items: usize, words: usize) -> Case {
    let mut noise = Noise::new(0xB10C);
    let block: Vec<u8> = (0..BLOCK).map(|_| noise.byte()).collect();
    let made = table_of(&message(format, &block, items));
    let table = Table {
        root: ROW,
        ..made.table()
    };
    let (_, width, plain) = *format;
    let bytes = &block[..words * width];
    let readers: [(&str, Reader); 3] = [
        (LIBRARY, library::read_word),
        (CAREFUL, careful::read_word),
        (TUNED, tuned::read_word),
    ];
    for (name, reader) in readers {
        assert_eq!(sum(reader, table, words), plain(bytes), "{name}");
    }
    let with = |(name, reader): (&'static str, Reader)| {
        Contender::new(name, bytes.len(), move || {
            black_box(sum(reader, black_box(table), words));
        })
    };
    let mut contenders: Vec<Contender> = readers.map(with).into();
    contenders.push(Contender::new(
        "floor: plain loop",
        bytes.len(),
        move || {
            black_box(plain(black_box(bytes)));
        },
    ));
    Case::of(table.used as usize, words, contenders)
}

type Reader = fn(Table, u64) -> Word;

/// The sum of a block's first words, each read by a call.
fn sum(reader: Reader, table: Table, words: usize) -> i64 {
    let word = |k| {
        let word = reader(table, k);
        assert_eq!(word.number, 0);
        word.value
    };
    (0..words as u64).map(word).sum()
}
