//! Row tables of any origin ("Row table"): whether one is sound, and the term that its root row
//! stands for.

use super::bytes::well_spelled;
use super::forest::{Forest, Term};
use crate::header::{ROWS, ROW_WORDS};

/// A table as it is lent: a message slice, the words of the rows, the rows claimed, the root row.
#[derive(Clone, Copy, Debug)]
pub struct Table<'a> {
    pub message: &'a [u8],
    pub rows: &'a [u32],
    pub used: u32,
    pub root: u32,
}

/// A sound row, its spans taken from the message and its references turned into row numbers.
#[derive(Clone, Copy, Debug)]
pub(super) enum Row<'a> {
    Integer(i64),
    Atom(&'a [u8]),
    String(&'a [u8]),
    Binary(&'a [u8]),
    Nil,
    Cell { item: usize, rest: usize },
    End,
    Field { field: usize, rest: usize },
    Tag { name: &'a [u8], inner: usize },
}

/// Whether a table is sound ("Plain text"): the rows claimed are there and at most 65,536, the root
/// is one of them, and each of them is sound.
pub fn sound(table: Table) -> bool {
    let used = table.used as usize;
    used <= table.rows.len() / ROW_WORDS
        && used <= ROWS
        && table.root < table.used
        && (0..used).all(|number| row(table, number).is_some())
}

/// The term of a sound table's root row. References go to earlier rows, so the rows up to the root
/// are all that it needs. Of an unsound table, which callers refuse first, the answer says nothing.
pub fn term(forest: &mut Forest, table: Table) -> Term {
    let mut terms: Vec<Term> = Vec::new();
    let mut last = forest.nil();
    for row in (0..=table.root as usize).map_while(|number| row(table, number)) {
        last = match row {
            Row::Integer(value) => forest.integer(value),
            Row::Atom(bytes) => forest.atom(bytes),
            Row::String(bytes) => forest.string(bytes),
            Row::Binary(bytes) => forest.binary(bytes),
            Row::Nil => forest.nil(),
            Row::Cell { item, rest } => forest.cons(terms[item], terms[rest]),
            Row::End => forest.end(),
            Row::Field { field, rest } => forest.field(terms[field], terms[rest]),
            Row::Tag { name, inner } => forest.tag(name, terms[inner]),
        };
        terms.push(last);
    }
    last
}

/// One row, or None where it is unsound: the last arm has the unknown kinds and the nonzero spare
/// words.
pub(super) fn row(table: Table<'_>, number: usize) -> Option<Row<'_>> {
    let [kind, first, second, third] = words(table, number)?;
    let spelled = |mark| span(table, first, second).filter(|bytes| well_spelled(bytes, mark));
    let earlier = |reference: u32| Some(reference as usize).filter(|&row| row < number);
    let rest = |kinds: [u32; 2]| {
        let rest = earlier(second)?;
        kinds.contains(&words(table, rest)?[0]).then_some(rest)
    };
    Some(match (kind, first, second, third) {
        (1, high, low, 0) => Row::Integer(joined(high, low)),
        (2, _, _, 0) => Row::Atom(spelled(b'\'')?),
        (3, _, _, 0) => Row::String(spelled(b'"')?),
        (4, start, length, 0) => Row::Binary(span(table, start, length)?),
        (5, 0, 0, 0) => Row::Nil,
        (6, item, _, 0) => Row::Cell {
            item: earlier(item)?,
            rest: rest([5, 6])?,
        },
        (7, 0, 0, 0) => Row::End,
        (8, field, _, 0) => Row::Field {
            field: earlier(field)?,
            rest: rest([7, 8])?,
        },
        (9, _, _, inner) => Row::Tag {
            name: spelled(b'`')?,
            inner: earlier(inner)?,
        },
        _ => return None,
    })
}

/// The words of a row that the table holds.
fn words(table: Table, number: usize) -> Option<[u32; ROW_WORDS]> {
    let row = table.rows.chunks_exact(ROW_WORDS).nth(number)?;
    row.try_into().ok()
}

/// The bytes of a span that lies in the message. The end is added up in more than 32 bits.
fn span<'a>(table: Table<'a>, start: u32, length: u32) -> Option<&'a [u8]> {
    let end = (start as usize).checked_add(length as usize)?;
    table.message.get(start as usize..end)
}

/// The number whose two's complement has these halves.
fn joined(high: u32, low: u32) -> i64 {
    i64::from(high as i32) * (1 << 32) + i64::from(low)
}

#[cfg(test)]
mod tests {
    use super::super::text::plain;
    use super::*;

    const NIL: [u32; ROW_WORDS] = [5, 0, 0, 0];
    const END: [u32; ROW_WORDS] = [7, 0, 0, 0];
    const MOST: u32 = u32::MAX;

    /// Bytes 0 to 6: quote, a, backslash, quote, backquote, double quote, backslash.
    const MESSAGE: &[u8] = b"'a\\'`\"\\";

    /// Rows that are sound, and rows that are not, as row 2 after an empty list and an empty tuple.
    const SOUND: [[u32; ROW_WORDS]; 14] = [
        [1, MOST, MOST, 0],
        [2, 1, 3, 0],
        [2, 7, 0, 0],
        [3, 3, 2, 0],
        [4, 0, 7, 0],
        [4, 7, 0, 0],
        NIL,
        END,
        [6, 0, 0, 0],
        [6, 1, 0, 0],
        [8, 1, 1, 0],
        [8, 0, 1, 0],
        [9, 1, 1, 1],
        [9, 0, 2, 0],
    ];
    const UNSOUND: [[u32; ROW_WORDS]; 39] = [
        // Unknown kind.
        [0, 0, 0, 0],
        [10, 0, 0, 0],
        [MOST, 0, 0, 0],
        // Nonzero spare word.
        [1, 0, 0, 1],
        [2, 1, 1, 1],
        [3, 1, 1, 1],
        [4, 1, 1, 1],
        [5, 1, 0, 0],
        [5, 0, 1, 0],
        [5, 0, 0, 1],
        [6, 0, 0, 1],
        [7, 1, 0, 0],
        [7, 0, 1, 0],
        [7, 0, 0, 1],
        [8, 0, 1, 1],
        // Span outside the slice.
        [4, 0, 8, 0],
        [2, 8, 0, 0],
        [4, 1, MOST, 0],
        [4, MOST, 1, 0],
        [4, MOST, MOST, 0],
        // Unescaped closing mark.
        [2, 0, 1, 0],
        [2, 3, 1, 0],
        [3, 5, 1, 0],
        [9, 4, 1, 0],
        // Bad escape, at the end of the span too.
        [3, 2, 2, 0],
        [9, 2, 2, 0],
        [2, 1, 2, 0],
        [3, 6, 1, 0],
        // Reference not earlier.
        [9, 1, 1, 2],
        [6, 2, 0, 0],
        [6, MOST, 0, 0],
        [6, 0, 2, 0],
        [8, 2, 1, 0],
        [8, 0, 2, 0],
        [8, 0, MOST, 0],
        [9, 1, 1, MOST],
        [6, 0, 3, 0],
        // Rest of the wrong kind.
        [6, 0, 1, 0],
        [8, 0, 0, 0],
    ];

    #[test]
    fn soundness() {
        for (cases, wanted) in [(&SOUND[..], true), (&UNSOUND[..], false)] {
            for &row in cases {
                let rows = [NIL, END, row, NIL].concat();
                let judged = |used, root| {
                    let (message, rows) = (MESSAGE, &rows[..]);
                    sound(Table {
                        message,
                        rows,
                        used,
                        root,
                    })
                };
                assert!(judged(2, 1));
                assert_eq!(judged(3, 2), wanted, "{row:?}");
                assert_eq!(judged(4, 0), wanted, "{row:?}");
                assert!(!judged(3, 3));
            }
        }
    }

    /// A table holds whole rows only, and at most 65,536 are used.
    #[test]
    fn rows_claimed() {
        let rows = [NIL; 65_537].concat();
        let judged = |words: usize, used| {
            let (message, rows) = (MESSAGE, &rows[..words]);
            sound(Table {
                message,
                rows,
                used,
                root: 0,
            })
        };
        assert!(judged(65_536 * ROW_WORDS, 65_536));
        assert!(!judged(65_537 * ROW_WORDS, 65_537));
        assert!(!judged(65_536 * ROW_WORDS, 65_537));
        assert!(judged(7, 1));
        assert!(!judged(7, 2));
        assert!(!judged(8, 0));
        assert!(!judged(8, MOST));
    }

    /// A field row that is a value and a rest as well, and a chain of 60,000 fields.
    #[test]
    fn terms() {
        let forest = &mut Forest::new();
        let message = MESSAGE;
        let (one, minus) = ([1, 0, 1, 0], [1, MOST, 0, 0]);
        let rows = &[END, one, [8, 1, 0, 0], [8, 2, 2, 0], minus].concat()[..];
        let texts = ["{}$", "1 $", "{1 }$", "{{1 }1 }$", "-4294967296 $"];
        for (root, text) in (0..).zip(texts) {
            let table = Table {
                message,
                rows,
                used: 5,
                root,
            };
            assert!(sound(table));
            let term = term(forest, table);
            assert_eq!(plain(forest, term, 99).unwrap(), text.as_bytes());
        }
        let fields = (0..60_000).flat_map(|rest| [8, 0, rest, 0]);
        let rows = &END.into_iter().chain(fields).collect::<Vec<u32>>()[..];
        let table = Table {
            message,
            rows,
            used: 60_001,
            root: 60_000,
        };
        assert!(sound(table));
        let end = forest.end();
        let tuple = forest.tuple(&vec![end; 60_000]);
        assert_eq!(term(forest, table), tuple);
    }
}
