//! Comparison by sorting: the opponent of the library's. It asks for sound tables, and does not check that they are.

use conformance::header::ROW_WORDS;
use conformance::model::rows::Table;
use conformance::tables::{ATOM, BINARY, CELL, FIELD, INTEGER, STRING, TAG};

/// A row's own contents and the classes of the rows in it: equal for two rows of one height exactly where their texts are.
#[derive(PartialEq, Eq, PartialOrd, Ord, Clone, Copy)]
struct Key<'a> {
    kind: u32,
    words: [u32; 2],
    bytes: &'a [u8],
    parts: [u32; 2],
}

/// A row of one of the two tables.
#[derive(Clone, Copy)]
struct Place {
    height: u32,
    side: usize,
    number: usize,
}

/// Whether the plain texts of the two roots are the same: classes are given by height, and within a height by sorting.
pub fn equal(a: Table, b: Table) -> bool {
    let tables = [a, b];
    let mut places = places(&tables);
    places.sort_by_key(|place| place.height);
    let mut classes = tables.map(|table| vec![0; table.used as usize]);
    let mut keyed = Vec::new();
    let mut next = 0;
    for level in places.chunk_by(|one, other| one.height == other.height) {
        let key = |place: &Place| key(tables[place.side], place.number, &classes[place.side]);
        keyed.clear();
        keyed.extend(level.iter().map(|place| (key(place), *place)));
        next = classify(&mut keyed, &mut classes, next);
    }
    classes[0][a.root as usize] == classes[1][b.root as usize]
}

/// Gives the rows of one height their classes, from `next` on, and answers the next class after them.
fn classify(keyed: &mut [(Key, Place)], classes: &mut [Vec<u32>; 2], next: u32) -> u32 {
    keyed.sort_unstable_by(|one, other| one.0.cmp(&other.0));
    let mut class = next;
    for same in keyed.chunk_by(|one, other| one.0 == other.0) {
        for (_, place) in same {
            classes[place.side][place.number] = class;
        }
        class += 1;
    }
    class
}

/// Every row of both tables with its height, which is 0 for a row with no other in it.
fn places(tables: &[Table; 2]) -> Vec<Place> {
    let mut places = Vec::new();
    for (side, table) in tables.iter().enumerate() {
        let start = places.len();
        for number in 0..table.used as usize {
            let height = |part: usize| -> u32 {
                let place: &Place = &places[start + part];
                place.height + 1
            };
            let height = parts(row(*table, number)).map(height).max().unwrap_or(0);
            places.push(Place {
                height,
                side,
                number,
            });
        }
    }
    places
}

fn row(table: Table<'_>, number: usize) -> &[u32] {
    &table.rows[number * ROW_WORDS..][..ROW_WORDS]
}

/// The rows in a row.
fn parts(row: &[u32]) -> impl Iterator<Item = usize> + '_ {
    let words = match row[0] {
        CELL | FIELD => 1..3,
        TAG => 3..4,
        _ => 0..0,
    };
    row[words].iter().map(|&part| part as usize)
}

fn key<'a>(table: Table<'a>, number: usize, classes: &[u32]) -> Key<'a> {
    let row = row(table, number);
    let words = match row[0] {
        INTEGER => [row[1], row[2]],
        _ => [0, 0],
    };
    let bytes = match row[0] {
        ATOM | STRING | BINARY | TAG => &table.message[row[1] as usize..][..row[2] as usize],
        _ => &[],
    };
    let mut below = [0; 2];
    for (class, part) in below.iter_mut().zip(parts(row)) {
        *class = classes[part];
    }
    Key {
        kind: row[0],
        words,
        bytes,
        parts: below,
    }
}
