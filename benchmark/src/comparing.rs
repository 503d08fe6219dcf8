//! The comparison beside one that sorts the rows, on two spellings of one list.

use crate::decoding::{table_of, LIBRARY};
use crate::measure::{Case, Section, Series};
use crate::sorted;
use crate::timing::Contender;
use conformance::library;
use conformance::messages::Value;
use conformance::noise::Noise;
use std::hint::black_box;

const NOTES: &str = "\
Two tables of one term, a list of random integers and strings, each decoded from a message of its own; the answer is 'equal'. \
The library judges both tables and clears its scratch in the call. \
Sorting is in Rust, on the heap, with a class for every row by height and contents; it does not judge the tables.";

const SIZES: [usize; 3] = [1_000, 3_000, 10_000];

pub fn section() -> Section {
    let series = Series {
        name: "integers and strings".to_string(),
        cases: SIZES.map(case).into(),
    };
    Section {
        title: "Comparing",
        units: "rows",
        size: "rows of each table",
        notes: NOTES,
        every_size: true,
        series: vec![series],
    }
}

/// An integer of any size, or a string of some letters.
fn item(noise: &mut Noise) -> Value {
    if noise.once_in(2) {
        return Value::Integer(noise.draw() as i64 >> noise.below(64));
    }
    let letters = (0..1 + noise.below(20)).map(|_| b'a' + noise.below(26) as u8);
    Value::String(letters.collect())
}

/// Two messages of one list of so many rows: the plain text, and one with a newline before every `&`.
fn messages(rows: usize) -> [Vec<u8>; 2] {
    let mut noise = Noise::new(0x5EED);
    let items: Vec<Value> = (0..(rows - 1) / 2).map(|_| item(&mut noise)).collect();
    let spelled = |cons: &[u8]| {
        let texts = items.iter().flat_map(|item| {
            let text = item.plain();
            [&text[..text.len() - 1], cons].concat()
        });
        [b'#'].into_iter().chain(texts).chain([b'$']).collect()
    };
    [spelled(b"&"), spelled(b"\n&")]
}

fn case(rows: usize) -> Case {
    let messages = messages(rows);
    let tables = messages.each_ref().map(|message| table_of(message));
    let [a, b] = tables.each_ref().map(|made| made.table());
    let rows = (a.used + b.used) as usize;
    let bytes = a.message.len() + b.message.len();
    let mut scratch = vec![0; rows];
    assert_eq!(library::compare(a, b, &mut scratch).equal, 1);
    assert!(sorted::equal(a, b));
    let ours = Contender::new(LIBRARY, bytes, move || {
        black_box(library::compare(black_box(a), black_box(b), &mut scratch));
    });
    let sorting = Contender::new("sorting in Rust", bytes, move || {
        black_box(sorted::equal(black_box(a), black_box(b)));
    });
    Case::of(a.used as usize, rows, vec![ours, sorting])
}
