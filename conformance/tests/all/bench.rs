//! 01's bench messages, with what 01 says of them.

use conformance::check::{shown, Checker, PROGRAM};
use conformance::tables::{
    Row, ATOM, BINARY, CELL, EMPTY_LIST, FIELD, INTEGER, STRING, TAG, TUPLE_END,
};

/// A bench line: the answer's four numbers, and of an accepted message the rows and the plain text.
struct Line {
    message: &'static [u8],
    answer: [u32; 4],
    rows: &'static [Row],
    plain: &'static [u8],
}

const fn accepted(
    message: &'static [u8],
    answer: [u32; 3],
    rows: &'static [Row],
    plain: &'static [u8],
) -> Line {
    let [consumed, root, used] = answer;
    Line {
        message,
        answer: [0, consumed, root, used],
        rows,
        plain,
    }
}

const fn refused(message: &'static [u8], number: u32, place: u32) -> Line {
    Line {
        message,
        answer: [number, place, 0, 0],
        rows: &[],
        plain: b"",
    }
}

const BENCH: &[Line] = &[
    refused(b"", 3, 0),
    refused(b"$", 11, 0),
    accepted(b"'a'$", [4, 0, 1], &[[ATOM, 1, 1, 0]], b"'a'$"),
    accepted(b"-0 $", [4, 0, 1], &[[INTEGER, 0, 0, 0]], b"0 $"),
    accepted(
        b"#2 &1 &$",
        [8, 4, 5],
        &[
            [EMPTY_LIST, 0, 0, 0],
            [INTEGER, 0, 2, 0],
            [CELL, 1, 0, 0],
            [INTEGER, 0, 1, 0],
            [CELL, 3, 2, 0],
        ],
        b"#2 &1 &$",
    ),
    accepted(b"{}$", [3, 0, 1], &[[TUPLE_END, 0, 0, 0]], b"{}$"),
    refused(b"1{>a}$", 6, 2),
    accepted(
        b"3~a~b~$",
        [7, 1, 2],
        &[[INTEGER, 0, 3, 0], [BINARY, 2, 3, 0]],
        b"3~a~b~$",
    ),
    refused(b"9223372036854775808 $", 5, 0),
    refused(b"a$", 9, 0),
    refused(b"1 2$", 11, 3),
    refused(b"1,2$", 4, 1),
    accepted(
        b"1 >a{aa}>a{aa}>aa$",
        [18, 6, 7],
        &[
            [INTEGER, 0, 1, 0],
            [TUPLE_END, 0, 0, 0],
            [FIELD, 0, 1, 0],
            [FIELD, 0, 2, 0],
            [TUPLE_END, 0, 0, 0],
            [FIELD, 3, 4, 0],
            [FIELD, 3, 5, 0],
        ],
        b"{{1 1 }{1 1 }}$",
    ),
    refused(b"12", 3, 2),
    refused(b"-a$", 4, 1),
];

/// Lines of our own, worked out by hand: ends of the integers, escapes, registers, comments, tags, nesting.
const OWN: &[Line] = &[
    accepted(
        b"9223372036854775807$",
        [20, 0, 1],
        &[[INTEGER, 0x7FFF_FFFF, 0xFFFF_FFFF, 0]],
        b"9223372036854775807 $",
    ),
    accepted(
        b"-9223372036854775808$",
        [21, 0, 1],
        &[[INTEGER, 0x8000_0000, 0, 0]],
        b"-9223372036854775808 $",
    ),
    accepted(
        b"-00012$",
        [7, 0, 1],
        &[[INTEGER, 0xFFFF_FFFF, 0xFFFF_FFF4, 0]],
        b"-12 $",
    ),
    accepted(
        b"'a\\'b\\\\\"'$",
        [10, 0, 1],
        &[[ATOM, 1, 7, 0]],
        b"'a\\'b\\\\\"'$",
    ),
    accepted(
        b"\"\n\\\"\x00'\"$",
        [8, 0, 1],
        &[[STRING, 1, 5, 0]],
        b"\"\n\\\"\x00'\"$",
    ),
    accepted(
        b"0~~$",
        [4, 1, 2],
        &[[INTEGER, 0, 0, 0], [BINARY, 2, 0, 0]],
        b"0~~$",
    ),
    accepted(
        b"2>aa~xy~$",
        [9, 1, 2],
        &[[INTEGER, 0, 2, 0], [BINARY, 5, 2, 0]],
        b"2~xy~$",
    ),
    accepted(
        b"#1>aa&a&$",
        [9, 3, 4],
        &[
            [EMPTY_LIST, 0, 0, 0],
            [INTEGER, 0, 1, 0],
            [CELL, 1, 0, 0],
            [CELL, 1, 2, 0],
        ],
        b"#1 &1 &$",
    ),
    accepted(
        b"1`t`` `$",
        [8, 2, 3],
        &[[INTEGER, 0, 1, 0], [TAG, 2, 1, 0], [TAG, 5, 1, 1]],
        b"1 `t`` `$",
    ),
    accepted(
        b" \t\r\n%a\\%b\\\\%7%%$",
        [16, 0, 1],
        &[[INTEGER, 0, 7, 0]],
        b"7 $",
    ),
    accepted(
        b"1 2>a$,$",
        [6, 0, 2],
        &[[INTEGER, 0, 1, 0], [INTEGER, 0, 2, 0]],
        b"1 $",
    ),
    accepted(
        b"1>\x002>\x00\x00$",
        [8, 1, 2],
        &[[INTEGER, 0, 1, 0], [INTEGER, 0, 2, 0]],
        b"2 $",
    ),
    accepted(
        b"{1 {'a'}\"b\"}$",
        [13, 8, 9],
        &[
            [INTEGER, 0, 1, 0],
            [ATOM, 5, 1, 0],
            [TUPLE_END, 0, 0, 0],
            [FIELD, 1, 2, 0],
            [STRING, 9, 1, 0],
            [TUPLE_END, 0, 0, 0],
            [FIELD, 4, 5, 0],
            [FIELD, 3, 6, 0],
            [FIELD, 0, 7, 0],
        ],
        b"{1 {'a'}\"b\"}$",
    ),
];

fn run(seed: u64, lines: &[Line]) {
    let mut checker = Checker::new(seed);
    for line in lines {
        let what = shown(line.message);
        let decoding = checker.decode(line.message, PROGRAM).sure(line.message);
        let answer = decoding.answer;
        let numbers = [answer.number, answer.place, answer.root, answer.rows];
        assert_eq!(numbers, line.answer, "{what}");
        if answer.number == 0 {
            let rows = line.rows.concat();
            assert_eq!(decoding.rows[..rows.len()], rows, "{what}");
            let table = decoding.table(line.message);
            let written = checker.write(table, line.rows.len(), line.plain.len());
            let (_, text) = written.sure(line.message);
            assert_eq!(shown(&text), shown(line.plain), "{what}");
        }
    }
}

#[test]
fn bench_messages_have_their_answers() {
    run(1, BENCH);
}

#[test]
fn our_own_messages_have_their_answers() {
    run(4, OWN);
}

#[test]
fn twenty_rounds_have_the_sizes_of_01() {
    const PLAIN_BYTES: usize = 4_194_303;
    let message = [b"1 >a".as_slice(), &b"{aa}>a".repeat(20), b"a$"].concat();
    assert_eq!(message.len(), 126);
    let mut checker = Checker::new(2);
    let decoding = checker.decode(&message, PROGRAM).sure(&message);
    assert_eq!([decoding.answer.place, decoding.answer.rows], [126, 61]);
    let table = decoding.table(&message);
    let (written, text) = checker.write(table, 61, PLAIN_BYTES).sure(&message);
    assert_eq!(
        [written.number as u64, written.bytes],
        [0, PLAIN_BYTES as u64]
    );
    assert!(text.starts_with(b"{{{{{{{{{{{{{{{{{{{{1 1 }{1 1 }}"));
    let (written, _) = checker.write(table, 61, PLAIN_BYTES - 1).sure(&message);
    assert_eq!(written.number, 15);
}

/// Messages that were once confused: same bytes in another kind, and a list in the order of the stream.
#[test]
fn kinds_and_orders_are_told_apart() {
    let pairs: [(&[u8], &[u8], u32); 5] = [
        (b"'a'$", b"\"a\"$", 0),
        (b"'a'$", b"1~a~$", 0),
        (b"#2 &1 &$", b"#1 &2 &$", 0),
        (b"{1 2 }$", b"#2 &1 &$", 0),
        (b"#2 &1 &$", b"1>x#2>yy&xx>z&$", 1),
    ];
    let mut checker = Checker::new(3);
    for (a, b, equal) in pairs {
        let left = checker.decode(a, PROGRAM).sure(a);
        let right = checker.decode(b, PROGRAM).sure(b);
        let (side_a, side_b) = (left.table(a), right.table(b));
        let scratch = (side_a.used + side_b.used) as usize;
        let compared = checker.compare(side_a, side_b, scratch).sure(a);
        assert_eq!(
            [compared.number, compared.equal],
            [0, equal],
            "{}",
            shown(b)
        );
    }
}
