//! Every refusal, and which one is given where two of them apply.

use conformance::check::{shown, Checker, PROGRAM};
use conformance::header::{MESSAGE_BYTES, REGISTER_WORDS, ROW_WORDS};
use conformance::model::decode::Lent;
use conformance::tables::{Made, ATOM, BINARY, EMPTY_LIST, INTEGER, TAG};
use std::collections::BTreeSet;

/// Room in rows, stack and noted depths.
#[derive(Clone, Copy)]
struct Room {
    rows: usize,
    stack: usize,
    marks: usize,
}

const PLENTY: Room = Room {
    rows: 99,
    stack: 99,
    marks: 99,
};
const NONE: Room = Room {
    rows: 0,
    stack: 0,
    marks: 0,
};

const fn rows(rows: usize) -> Room {
    Room { rows, ..PLENTY }
}

const fn stack(stack: usize) -> Room {
    Room { stack, ..PLENTY }
}

const fn marks(marks: usize) -> Room {
    Room { marks, ..PLENTY }
}

/// No room for one more row than `rows`, nor for one more value than `stack`.
const fn rows_and_stack(rows: usize, stack: usize) -> Room {
    Room {
        rows,
        stack,
        marks: 99,
    }
}

type Case = (&'static [u8], Room, u32, u32);

/// By item, in 01's order: the message, the room lent, the refusal and its place. Where a case is about two refusals, the
/// second of them is named beside it, and each stands alone in a case of its own.
const ITEMS: &[(&str, &[Case])] = &[
    (
        "integer",
        &[
            (b"-", PLENTY, 3, 1),
            (b"12", PLENTY, 3, 2),
            // 3 against 4: the first byte that cannot stand there is 4, and the slice then has not ended: never both.
            (b"-a", PLENTY, 4, 1),
            (b"1 --", PLENTY, 4, 3),
            (b"9223372036854775808", PLENTY, 3, 19), // 5
            (b"1", NONE, 3, 1),                      // 12, 13
            // 4 against 5: an integer with a byte that cannot stand there has no digits: never both.
            (b"-a", NONE, 4, 1), // 12, 13
            (b"9223372036854775808 $", PLENTY, 5, 0),
            (b"-9223372036854775809 $", PLENTY, 5, 0),
            (b"7 00099999999999999999999 $", PLENTY, 5, 2),
            (b"9223372036854775808,", PLENTY, 5, 0), // 4, of the next item
            (b"9223372036854775808 $", rows(0), 5, 0), // 12
            (b"9223372036854775808 $", stack(0), 5, 0), // 13
            (b"7 8 $", rows(1), 12, 2),
            (b"7 8 $", rows_and_stack(1, 1), 12, 2), // 13
            (b"7 8 $", stack(1), 13, 2),
        ],
    ),
    (
        "atom and string",
        &[
            (b"'", PLENTY, 3, 1),
            (b"\"a\\\"", PLENTY, 3, 4),
            (b"'a\\", PLENTY, 3, 3),
            // 3 against 4: never both, as above.
            (b"'a\\b'", PLENTY, 4, 3),
            (b"'\\\"'", PLENTY, 4, 2),
            (b"\"\\'\"", PLENTY, 4, 2),
            (b"'\\a", PLENTY, 4, 2),
            (b"'a", NONE, 3, 2),       // 12, 13
            (b"\"\\a\"$", NONE, 4, 2), // 12, 13
            // 5 is of integers alone.
            (b"'a''b'$", rows(1), 12, 3),
            (b"'a''b'$", rows_and_stack(1, 1), 12, 3), // 13
            (b"'a'\"b\"$", stack(1), 13, 3),
        ],
    ),
    (
        "tag",
        &[
            (b"1 `", PLENTY, 3, 3),
            (b"`a", PLENTY, 3, 2), // 6
            // 3 against 4: never both.
            (b"1 `\\a`$", PLENTY, 4, 4),
            (b"`\\a`$", PLENTY, 4, 2), // 6
            (b"1 `a", rows(1), 3, 4),  // 12
            (b"1 `\\", rows(1), 3, 4), // 12
            (b"`a`$", PLENTY, 6, 0),
            (b"1{`a`}$", PLENTY, 6, 2),
            (b"`a`$", rows(0), 6, 0),    // 12
            (b"1{`a`}$", rows(1), 6, 2), // 12
            (b"1 `a`$", rows(1), 12, 2),
        ],
    ),
    (
        "comment",
        &[
            (b"%", PLENTY, 3, 1),
            (b"%a\\", PLENTY, 3, 3),
            // 3 against 4: never both.
            (b"%a\\a%$", PLENTY, 4, 3),
            (b"%\\'", PLENTY, 4, 2),
        ],
    ),
    (
        "binary",
        &[
            (b"~a~$", PLENTY, 6, 0),
            (b"1{~a~}$", PLENTY, 6, 2),
            (b"'a'{~", PLENTY, 6, 4), // 7, were the pop to go through the brace; 3
            (b"-1{~}$", PLENTY, 6, 3), // 8, likewise
            (b"'a'~a~$", PLENTY, 7, 3),
            (b"1`t`~a~$", PLENTY, 7, 4),
            // 7 against 8: what is no integer is not negative; a tagged negative one is the nearest to both.
            (b"-1`t`~a~$", PLENTY, 7, 5),
            (b"\"\"~", PLENTY, 7, 2), // 3
            (b"-1~a~$", PLENTY, 8, 2),
            (b"-9223372036854775808~", PLENTY, 8, 20), // 3
            (b"-1~", rows(1), 8, 2),                   // 3, 12
            (b"0~", PLENTY, 3, 2),
            (b"2~ab", PLENTY, 3, 4),
            (b"3~ab", PLENTY, 3, 4),
            (b"9223372036854775807~ab~$", PLENTY, 3, 24),
            (b"4294967297~ab~$", PLENTY, 3, 15),
            // 3 against 4: a count at or beyond the bytes left leaves no byte to be the wrong one: never both.
            (b"2~abc~$", PLENTY, 4, 4),
            (b"0~ab~$", PLENTY, 4, 2),
            (b"2~ab", rows(1), 3, 4),    // 12
            (b"2~abc~$", rows(1), 4, 4), // 12
            (b"2~ab~$", rows(1), 12, 1),
        ],
    ),
    (
        "list cell",
        &[
            (b"#&$", PLENTY, 6, 1),
            (b"&$", PLENTY, 6, 0),
            (b"#1{&}$", PLENTY, 6, 3),
            (b"#{1&}$", PLENTY, 6, 3),
            (b"1&$", PLENTY, 6, 1),    // 7
            (b"1{2&}$", PLENTY, 6, 3), // 7
            (b"#&$", rows(1), 6, 1),   // 12
            (b"1 2&$", PLENTY, 7, 3),
            (b"#`t`1&$", PLENTY, 7, 5),
            (b"{}1&$", PLENTY, 7, 3),
            (b"1 #&$", PLENTY, 7, 3),
            (b"1 2&$", rows(2), 7, 3), // 12
            (b"#1&$", rows(2), 12, 2),
        ],
    ),
    (
        "tuple's end",
        &[
            (b"}$", PLENTY, 10, 0),
            (b"{}}$", PLENTY, 10, 2),
            (b"}$", NONE, 10, 0), // 12, 13
            // 17: a pop never goes below the noted depth, so the present depth is never under it.
            (b"{1 2}$", rows(4), 12, 4),
            (b"{1 2}$", rows(2), 12, 4),
            (b"{}$", rows_and_stack(0, 0), 12, 1),    // 13
            (b"1{}$", rows_and_stack(1, 1), 12, 2),   // 13
            (b"1 2{}$", rows_and_stack(2, 2), 12, 4), // 13
            (b"{}$", stack(0), 13, 1),
            (b"1{}$", stack(1), 13, 2),
        ],
    ),
    (
        "tuple's start",
        &[
            (b"{}$", marks(0), 14, 0),
            (b"{{}}$", marks(1), 14, 1),
            (b"{}{}{{}}$", marks(1), 14, 5),
            (b"{$", NONE, 14, 0), // 10 and 11, of the next item
        ],
    ),
    (
        "empty list",
        &[
            (b"#$", NONE, 12, 0), // 13
            (b"##$", rows(1), 12, 1),
            (b"##$", rows_and_stack(1, 1), 12, 1), // 13
            (b"##$", stack(1), 13, 1),
        ],
    ),
    (
        "store",
        &[
            (b"1>", PLENTY, 3, 2),
            (b">", PLENTY, 3, 1), // 6
            // 3 against 4: never both.
            (b"1>$", PLENTY, 4, 2),
            (b"1>>", PLENTY, 4, 2),
            (b"1> a$", PLENTY, 4, 2),
            (b"1>0$", PLENTY, 4, 2),
            (b"1>,$", PLENTY, 4, 2),
            (b">$", PLENTY, 4, 1), // 6
            (b">-", PLENTY, 4, 1), // 6
            (b">a$", PLENTY, 6, 0),
            (b"1{>a}$", PLENTY, 6, 2),
        ],
    ),
    (
        "push",
        &[
            (b"a$", PLENTY, 9, 0),
            (b"1>ab$", PLENTY, 9, 3),
            (b"1>a1>A\\$", PLENTY, 9, 6),
            (b"a$", stack(0), 9, 0),     // 13
            (b"1>aab$", stack(1), 9, 4), // 13
            (b"1>aaa$", stack(1), 13, 4),
        ],
    ),
    (
        "end",
        &[
            (b"{$", PLENTY, 10, 1), // 11
            (b"1{$", PLENTY, 10, 2),
            (b"1 2{$", PLENTY, 10, 4), // 11
            (b"$", PLENTY, 11, 0),
            (b"1 2$", PLENTY, 11, 3),
            (b"1>a$", PLENTY, 11, 3),
        ],
    ),
    (
        "no item",
        &[
            (b",", PLENTY, 4, 0),
            (b"1,2$", PLENTY, 4, 1),
            (b"", NONE, 3, 0),
            (b" \t\r\n", PLENTY, 3, 4),
            (b"1 ", PLENTY, 3, 2),
            (b"%c%", PLENTY, 3, 3),
        ],
    ),
];

/// Longer by a byte than a message may be.
fn too_long() -> Vec<u8> {
    vec![b'1'; MESSAGE_BYTES + 1]
}

#[test]
fn items_refuse_in_their_order() {
    let mut checker = Checker::new(1);
    let mut seen = BTreeSet::new();
    for (item, cases) in ITEMS {
        for &(message, room, number, place) in *cases {
            let lent = Lent {
                rows: room.rows * ROW_WORDS,
                stack: room.stack,
                marks: room.marks,
                registers: REGISTER_WORDS,
            };
            let answer = checker.decode(message, lent).sure(message).answer;
            let numbers = [answer.number, answer.place, answer.root, answer.rows];
            let what = shown(message);
            assert_eq!(numbers, [number, place, 0, 0], "{item}: {what}, {lent:?}");
            seen.insert(number);
        }
    }
    assert_eq!(seen, (3..=14).collect());
}

/// Of two items that would be refused, the first one is.
#[test]
fn items_refuse_from_left_to_right() {
    let refused: [(&[u8], u32, u32); 6] = [
        (b",", 4, 0),
        (b"9223372036854775808 ", 5, 0),
        (b"&", 6, 0),
        (b"'a'~", 7, 3),
        (b"a", 9, 0),
        (b"}", 10, 0),
    ];
    let mut checker = Checker::new(2);
    for (first, number, place) in refused {
        for (second, _, _) in refused {
            let message = [first, second, b"$"].concat();
            let answer = checker.decode(&message, PROGRAM).sure(&message).answer;
            let what = shown(&message);
            assert_eq!([answer.number, answer.place], [number, place], "{what}");
        }
    }
}

/// The decoder's number and place for a byte and `$`, from what 01 says the byte is.
fn byte_and_end(byte: u8) -> [u32; 2] {
    match byte {
        b' ' | b'\t' | b'\n' | b'\r' => [11, 1],
        b'0'..=b'9' | b'#' => [0, 2],
        b'-' | b'>' => [4, 1],
        b'\'' | b'"' | b'`' | b'%' => [3, 2],
        b'~' | b'&' => [6, 0],
        b'{' => [10, 1],
        b'}' => [10, 0],
        b'$' => [11, 0],
        b',' => [4, 0],
        _ => [9, 0],
    }
}

#[test]
fn every_byte_is_what_01_says() {
    let mut checker = Checker::new(7);
    let mut registers = 0;
    for byte in 0..=u8::MAX {
        let alone = byte_and_end(byte);
        let message = [byte, b'$'];
        let answer = checker.decode(&message, PROGRAM).sure(&message).answer;
        assert_eq!([answer.number, answer.place], alone, "{}", shown(&message));
        let message = [b'1', b'>', byte, byte, b'$'];
        let due = if alone == [9, 0] { [0, 5] } else { [4, 2] };
        let answer = checker.decode(&message, PROGRAM).sure(&message).answer;
        assert_eq!([answer.number, answer.place], due, "{}", shown(&message));
        registers += u32::from(answer.number == 0);
    }
    assert_eq!(registers, 229);
}

#[test]
fn decoder_refuses_1_then_2_then_the_rest() {
    let short = Lent {
        registers: REGISTER_WORDS - 1,
        ..PROGRAM
    };
    let none = Lent {
        rows: 0,
        stack: 0,
        marks: 0,
        registers: 0,
    };
    let long = too_long();
    let cases: [(&[u8], Lent, u32); 6] = [
        (&long, PROGRAM, 1),
        (&long, short, 1),
        (&long, none, 1),
        (b"1$", short, 2),
        (b",", short, 2),
        (b"", none, 2),
    ];
    let mut checker = Checker::new(3);
    for (message, lent, number) in cases {
        let answer = checker.decode(message, lent).sure(b"").answer;
        let numbers = [answer.number, answer.place, answer.root, answer.rows];
        assert_eq!(numbers, [number, 0, 0, 0], "{} bytes", message.len());
    }
}

fn sound() -> Made {
    Made::of_rows(b"'a'$", &[[INTEGER, 0, 7, 0], [ATOM, 1, 1, 0]])
}

fn unsound() -> Made {
    Made::of_rows(b"'a'$", &[[0, 0, 0, 0], [ATOM, 1, 1, 0]])
}

fn long(made: Made) -> Made {
    let message = too_long();
    Made { message, ..made }
}

#[test]
fn writer_refuses_1_2_16_15() {
    let cases = [
        (long(unsound()), 1, 0, 1),
        (long(sound()), 2, 9, 1),
        (unsound(), 1, 0, 2),
        (sound(), 1, 9, 2),
        (sound(), 0, 0, 2),
        (unsound(), 2, 0, 16),
        (unsound(), 2, 9, 16),
        (sound(), 2, 3, 15),
        (sound(), 2, 0, 15),
        (sound(), 2, 4, 0),
    ];
    let mut checker = Checker::new(4);
    for (at, (made, scratch, output, number)) in cases.iter().enumerate() {
        let (written, _) = checker.write(made.table(), *scratch, *output).sure(b"");
        assert_eq!(written.number, *number, "case {at}");
    }
}

#[test]
fn comparison_refuses_1_2_16() {
    let cases = [
        (long(unsound()), sound(), 0, 1),
        (sound(), long(unsound()), 0, 1),
        (long(sound()), sound(), 4, 1),
        (unsound(), long(sound()), 4, 1),
        (unsound(), sound(), 3, 2),
        (sound(), unsound(), 3, 2),
        (sound(), sound(), 3, 2),
        (sound(), sound(), 0, 2),
        (unsound(), sound(), 4, 16),
        (sound(), unsound(), 4, 16),
        (unsound(), unsound(), 4, 16),
        (sound(), sound(), 4, 0),
    ];
    let mut checker = Checker::new(5);
    for (at, (a, b, scratch, number)) in cases.iter().enumerate() {
        let compared = checker.compare(a.table(), b.table(), *scratch).sure(b"");
        assert_eq!(compared.number, *number, "case {at}");
    }
}

/// A block of three bytes named by the message's head; before it an atom, or a row of no kind.
fn block(name: &[u8], before: [u32; ROW_WORDS]) -> Made {
    let message = [name, b"abc"].concat();
    let length = name.len() as u32;
    let rows = [before, [BINARY, length, 3, 0], [TAG, 0, length, 1]];
    Made::of_rows(&message, &rows)
}

#[test]
fn reader_of_words_refuses_1_16_18_19_20() {
    const SOUND: [u32; ROW_WORDS] = [EMPTY_LIST, 0, 0, 0];
    const UNSOUND: [u32; ROW_WORDS] = [EMPTY_LIST, 0, 0, 1];
    let cases = [
        (long(block(b"u24be", UNSOUND)), 9, 1),
        (long(block(b"u8", SOUND)), 0, 1),
        (block(b"u24be", UNSOUND), 9, 16),
        (block(b"u16be", UNSOUND), 9, 16),
        (block(b"u8", UNSOUND), 9, 16),
        // 18 against 19: an unknown name has no width, so never both.
        (block(b"u24be", SOUND), 9, 18),
        (block(b"u16be", SOUND), 9, 19),
        (block(b"u16be", SOUND), 0, 19),
        (block(b"u8", SOUND), 3, 20),
        (block(b"u8", SOUND), 2, 0),
    ];
    let mut checker = Checker::new(6);
    for (at, (made, k, number)) in cases.iter().enumerate() {
        let word = checker.read_word(made.table(), *k).sure(b"");
        assert_eq!(word.number, *number, "case {at}");
    }
}
