//! What writer, comparison and reader of sensor words answer ("Plain text", "Sensor words").

use super::forest::Forest;
use super::rows::{row, sound, term, Row, Table};
use super::text::plain;
use super::words::{join, known};
use crate::header::MESSAGE_BYTES;

/// 0 and the text, or a refusal and none.
#[derive(Clone, PartialEq, Eq, Debug)]
pub struct Written {
    pub number: u32,
    pub text: Vec<u8>,
}

/// 0 and whether the texts are the same (1) or not (0), or a refusal and 0.
#[derive(Clone, Copy, PartialEq, Eq, Debug)]
pub struct Compared {
    pub number: u32,
    pub equal: u32,
}

/// 0 and the word, or a refusal and 0.
#[derive(Clone, Copy, PartialEq, Eq, Debug)]
pub struct Word {
    pub number: u32,
    pub value: i64,
}

/// The writer, with scratch in words and output in bytes: 1, 2, 16, 15.
pub fn write(forest: &mut Forest, table: Table, scratch: usize, output: usize) -> Written {
    match written(forest, table, scratch, output) {
        Ok(text) => Written { number: 0, text },
        Err(number) => Written {
            number,
            text: Vec::new(),
        },
    }
}

fn written(
    forest: &mut Forest,
    table: Table,
    scratch: usize,
    output: usize,
) -> Result<Vec<u8>, u32> {
    judge(&[table], Some(scratch))?;
    let term = term(forest, table);
    plain(forest, term, output).ok_or(15)
}

/// The comparison, with scratch in words for both sides together: 1, 2, 16. Equal texts are equal
/// terms, since a text is a message of the term that it was written from; and equal terms are the
/// same node.
pub fn compare(forest: &mut Forest, a: Table, b: Table, scratch: usize) -> Compared {
    if let Err(number) = judge(&[a, b], Some(scratch)) {
        return Compared { number, equal: 0 };
    }
    let equal = term(forest, a) == term(forest, b);
    Compared {
        number: 0,
        equal: equal.into(),
    }
}

/// The reader: word k of the block at the row in the root's place: 1, 16, 18, 19, 20. No scratch.
pub fn read_word(table: Table, k: u64) -> Word {
    match word(table, k) {
        Ok(value) => Word { number: 0, value },
        Err(number) => Word { number, value: 0 },
    }
}

fn word(table: Table, k: u64) -> Result<i64, u32> {
    judge(&[table], None)?;
    let Some(Row::Tag { name, inner }) = row(table, table.root as usize) else {
        return Err(18);
    };
    let (Some(format), Some(Row::Binary(bytes))) = (known(name), row(table, inner)) else {
        return Err(18);
    };
    if bytes.len() % format.width != 0 {
        return Err(19);
    }
    let k = usize::try_from(k).map_err(|_| 20_u32)?;
    let word = bytes.chunks_exact(format.width).nth(k).ok_or(20_u32)?;
    Ok(join(format, word))
}

/// Refusals 1, 2 and 16 over all tables of a call, in this order: each number is looked for on
/// every side before the next. Without scratch there is no 2.
fn judge(tables: &[Table], scratch: Option<usize>) -> Result<(), u32> {
    let used: u64 = tables.iter().map(|table| u64::from(table.used)).sum();
    if tables
        .iter()
        .any(|table| table.message.len() > MESSAGE_BYTES)
    {
        return Err(1);
    }
    if scratch.is_some_and(|words| (words as u64) < used) {
        return Err(2);
    }
    if tables.iter().any(|&table| !sound(table)) {
        return Err(16);
    }
    Ok(())
}

#[cfg(test)]
mod tests {
    use super::super::decode::{decode, Decoded, Lent};
    use super::*;

    const LENT: Lent = Lent {
        rows: 1 << 18,
        stack: 4_096,
        marks: 256,
        registers: 256,
    };

    fn made(forest: &mut Forest, message: &[u8]) -> Decoded {
        let decoded = decode(forest, message, LENT);
        assert_eq!(decoded.number, 0);
        decoded
    }

    fn table<'a>(message: &'a [u8], decoded: &'a Decoded) -> Table<'a> {
        Table {
            message,
            rows: &decoded.rows,
            used: decoded.used,
            root: decoded.root,
        }
    }

    /// The order 1, 2, 16, 15, and the edges of scratch and output.
    #[test]
    fn writer() {
        let forest = &mut Forest::new();
        let message = b"{1'a'}`t`$";
        let decoded = made(forest, message);
        let good = table(message, &decoded);
        let long = vec![b' '; 1_048_577];
        let unsound = Table { root: 6, ..good };
        let over = Table {
            message: &long,
            ..unsound
        };
        let most = Table {
            message: &long[1..],
            ..good
        };
        let claimed = Table {
            used: u32::MAX,
            ..good
        };
        let cases = [
            (good, 6, 11, 0),
            (good, 6, 10, 15),
            (good, 5, 0, 2),
            (unsound, 5, 0, 2),
            (unsound, 6, 0, 16),
            (over, 5, 0, 1),
            (over, 6, 99, 1),
            (most, 6, 99, 0),
            (claimed, 6, 99, 2),
            (claimed, u32::MAX as usize, 99, 16),
        ];
        for (table, scratch, output, number) in cases {
            let written = write(forest, table, scratch, output);
            assert_eq!(written.number, number);
            assert_eq!(written.text.is_empty(), number != 0);
        }
        assert_eq!(write(forest, good, 6, 99).text, b"{1 'a'}`t`$");
    }

    /// Equal and different pairs, and the order 1, 2, 16 over both sides.
    #[test]
    fn comparison() {
        let forest = &mut Forest::new();
        let rounds = |count: usize| ["1>a", &"{aa}>a".repeat(count), "a$"].concat();
        let pairs = [
            ("'a'$", "\"a\"$", 0),
            ("'a'$", "1~a~$", 0),
            ("-0$", "%x%000$,", 1),
            ("{{1 1}{1 1}}$", "1 >a{aa}>a{aa}>aa$", 1),
            ("#2&1&$", "#1&2&$", 0),
            ("#$", "{}$", 0),
            ("{#}$", "##&$", 0),
            ("1`a`$", "1$", 0),
            (&rounds(300), &rounds(300), 1),
            (&rounds(300), &rounds(299), 0),
        ];
        let long = vec![0; 1_048_577];
        for (one, other, equal) in pairs {
            let (one, other) = (one.as_bytes(), other.as_bytes());
            let (left, right) = (made(forest, one), made(forest, other));
            let (a, b) = (table(one, &left), table(other, &right));
            let words = (left.used + right.used) as usize;
            let answer = Compared { number: 0, equal };
            assert_eq!(compare(forest, a, b, words), answer);
            assert_eq!(compare(forest, b, a, words), answer);
            let unsound = Table {
                root: u32::MAX,
                ..b
            };
            let over = Table {
                message: &long,
                ..b
            };
            assert_eq!(compare(forest, a, unsound, words).number, 16);
            assert_eq!(compare(forest, unsound, a, words - 1).number, 2);
            assert_eq!(compare(forest, unsound, over, 0).number, 1);
        }
    }

    /// A table of six rows whose root is the last; equal spans of its message are equal bytes.
    fn small(rows: &[u32]) -> Table<'_> {
        Table {
            message: b"aaaaaa",
            rows,
            used: 6,
            root: 5,
        }
    }

    /// Tables that no decoder made: equal exactly where the texts are the same bytes.
    #[test]
    fn comparison_agrees_with_texts() {
        let forest = &mut Forest::new();
        let mut seed = 1_u64;
        let mut below = |bound: u64| {
            seed = seed.wrapping_mul(6_364_136_223_846_793_005).wrapping_add(1);
            ((seed >> 33) % bound) as u32
        };
        let mut found: Vec<(Vec<u32>, Vec<u8>)> = Vec::new();
        for _ in 0..20_000 {
            let head = [5, 0, 0, 0, 7, 0, 0, 0];
            let kinds = [2, 3, 4, 6, 6, 8, 8, 9];
            let more = (0..4).flat_map(|_| [kinds[below(8) as usize], below(4), below(4), 0]);
            let rows: Vec<u32> = head.into_iter().chain(more).collect();
            let written = write(forest, small(&rows), 6, 1 << 10);
            if written.number == 0 {
                found.push((rows, written.text));
            }
        }
        assert!(found.len() > 300);
        found.truncate(300);
        for (a, text) in &found {
            for (b, other) in &found {
                let compared = compare(forest, small(a), small(b), 12);
                assert_eq!(compared.equal, u32::from(text == other));
            }
        }
    }

    /// Messages and k, with number and value.
    const WORDS: [(&[u8], u64, u32, i64); 17] = [
        (b"2~\x01\x02~`u16be`$", 0, 0, 258),
        (b"2~\x01\x02~`u16le`$", 0, 0, 513),
        (b"4~\x01\x02\xff\xfe~`i16be`$", 1, 0, -2),
        (b"4~\x01\x02\xff\xfe~`i16le`$", 1, 0, -257),
        (b"4~\x01\x02\xff\xfe~`i16le`$", 2, 20, 0),
        (b"4~\x01\x02\xff\xfe~`u8`$", 3, 0, 254),
        (b"4~\x01\x02\xff\xfe~`i8`$", u64::MAX, 20, 0),
        (b"4~\x01\x02\xff\xfe~`i16le`$", 1 << 63, 20, 0),
        (b"4~\x01\x02\xff\xfe~`u32le`$", 1 << 62, 20, 0),
        (b"3~abc~`i16le`$", u64::MAX, 19, 0),
        (b"3~abc~`i16le`$", 0, 19, 0),
        (b"0~~`u32be`$", 0, 20, 0),
        (b"3~abc~`u64be`$", 9, 18, 0),
        (b"3~abc~`u16be``u8`$", 9, 18, 0),
        (b"3~abc~$", 0, 18, 0),
        (b"\"abc\"`u8`$", 0, 18, 0),
        (b"{3~abc~`u8`}$", 0, 18, 0),
    ];

    /// Words of blocks, and the order 1, 16, 18, 19, 20.
    #[test]
    fn words() {
        let forest = &mut Forest::new();
        let long = vec![0; 1_048_577];
        for (message, k, number, value) in WORDS {
            let decoded = made(forest, message);
            let good = table(message, &decoded);
            let used = decoded.used + 1;
            let unsound = Table { used, ..good };
            let message = &long;
            let over = Table { message, ..unsound };
            for (table, number, value) in [(good, number, value), (unsound, 16, 0), (over, 1, 0)] {
                assert_eq!(read_word(table, k), Word { number, value });
            }
        }
    }

    /// A block that is a field: its own row stands in the root's place.
    #[test]
    fn word_of_a_field() {
        let message = b"{3~abc~`u8`}$";
        let decoded = made(&mut Forest::new(), message);
        let whole = table(message, &decoded);
        let word = read_word(Table { root: 2, ..whole }, 1);
        assert_eq!((word.number, word.value), (0, 98));
    }
}
