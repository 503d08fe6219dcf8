//! Terms whose texts no memory could hold, and tables filled to the last row.

use conformance::check::{shown, Checker, LARGEST};
use conformance::header::{MARKS, ROWS, ROW_WORDS, STACK_WORDS};
use conformance::model::decode::Lent;

/// Rounds of doubling: `1 >a`, then `{aa}>a` so often, then `a$`.
fn doubled(first: &str, round: &str, times: usize, last: &str) -> Vec<u8> {
    [first, &round.repeat(times), last].concat().into_bytes()
}

/// The 2^n leaves of 01's rounds, and other messages with the same leaves or others.
fn spellings(times: usize) -> (Vec<Vec<u8>>, Vec<Vec<u8>>) {
    let equal = vec![
        doubled("1 >a", "{aa}>a", times, "a$"),
        doubled("001 >\\", "%c% { \\\\ } >\\", times, "\\$"),
        doubled("1>a1>b", "{ab}>c{ab}>bc>a", times, "a$"),
        doubled("1>a1>d", "{ad}>d{aa}>a", times, "d$"),
        doubled("1>a", "{aa}>a", times - 1, "a{aa}>c>dc$"),
    ];
    let different = vec![
        doubled("2 >a", "{aa}>a", times, "a$"),
        doubled("'1'>a", "{aa}>a", times, "a$"),
        doubled("1 >a", "{aa}>a", times + 1, "a$"),
        doubled("1 >a", "{aa}>a", times - 1, "a$"),
        doubled("1 >a", "#a&a&>a", times, "a$"),
        doubled("1>a2>d", "{ad}>d{aa}>a", times, "d$"),
        doubled("1>a2>d", "{da}>d{aa}>a", times, "d$"),
        doubled("1>a", "{aa}>a", times, "a`t`$"),
    ];
    (equal, different)
}

const LENT: Lent = Lent {
    rows: 4_000 * ROW_WORDS,
    stack: 99,
    marks: 9,
    registers: LARGEST.registers,
};

fn compare(checker: &mut Checker, a: &[u8], b: &[u8], lent: Lent) -> u32 {
    let left = checker.decode(a, lent).sure(a);
    let right = checker.decode(b, lent).sure(b);
    assert!(left.accepted(), "{}", shown(a));
    assert!(right.accepted(), "{}", shown(b));
    let (side_a, side_b) = (left.table(a), right.table(b));
    let scratch = (side_a.used + side_b.used) as usize;
    let compared = checker.compare(side_a, side_b, scratch).sure(b);
    assert_eq!(compared.number, 0, "{}", shown(b));
    compared.equal
}

fn rounds_are_told_apart(times: usize) {
    let mut checker = Checker::new(times as u64);
    let (equal, different) = spellings(times);
    for message in &equal {
        let found = compare(&mut checker, &equal[0], message, LENT);
        assert_eq!(found, 1, "{}", shown(message));
    }
    for message in &different {
        let found = compare(&mut checker, &equal[0], message, LENT);
        assert_eq!(found, 0, "{}", shown(message));
    }
}

#[test]
fn sixty_rounds() {
    rounds_are_told_apart(60);
}

#[test]
fn three_hundred_rounds() {
    rounds_are_told_apart(300);
}

#[test]
fn their_texts_are_refused() {
    let mut checker = Checker::new(1);
    for times in [21, 60, 300] {
        let message = doubled("1 >a", "{aa}>a", times, "a$");
        let decoding = checker.decode(&message, LENT).sure(&message);
        let table = decoding.table(&message);
        let output = 1 << 20;
        let (written, _) = checker
            .write(table, table.used as usize, output)
            .sure(&message);
        assert_eq!(written.number, 15, "{times} rounds");
    }
}

/// A message that fills a row table or another table to its end, and its plain text.
struct Full {
    message: Vec<u8>,
    plain: Vec<u8>,
    rows: usize,
}

/// A message of a head, a piece so often, and a tail. Its text: a piece so often before a middle, another after it, and an end.
fn full(rows: usize, message: [&str; 3], times: usize, plain: [&str; 4]) -> Full {
    let [head, piece, tail] = message;
    let [before, middle, after, end] = plain;
    let text = [&before.repeat(times), middle, &after.repeat(times), end];
    Full {
        message: [head, &piece.repeat(times), tail].concat().into_bytes(),
        plain: text.concat().into_bytes(),
        rows,
    }
}

/// Deep lists, tuples and tags, long lists, and wide tuples.
fn fullest(rows: usize) -> [Full; 9] {
    let half = rows / 2 - 1;
    let odd = 2 * half + 1;
    let wide = (STACK_WORDS - 1).min(rows - 2);
    let closing = "}".repeat(MARKS) + "$";
    let tuples = ["1>a", "{a}>a", "a`t`$"];
    [
        full(odd, ["#>a", "#a&>a", "a$"], half, ["#", "#", "&", "$"]),
        // a row for each round, so that it is the deepest of all
        full(
            rows,
            ["#>ee>a", "ea&>a", "a$"],
            rows - 1,
            ["#", "#", "&", "$"],
        ),
        full(odd, ["{}>a", "{a}>a", "a$"], half, ["{", "{}", "}", "$"]),
        full(odd + 1, tuples, half, ["{", "1 ", "}", "`t`$"]),
        full(rows, ["1 ", "`t`", "$"], rows - 1, ["", "1 ", "`t`", "$"]),
        full(odd, ["#", "1 &", "$"], half, ["", "#", "1 &", "$"]),
        full(
            rows,
            ["'b'>a#", "a&", "$"],
            rows - 2,
            ["", "#", "'b'&", "$"],
        ),
        full(wide + 2, ["1>a{", "a", "}$"], wide, ["", "{", "1 ", "}$"]),
        full(
            2 * MARKS - 1,
            ["", "{", &closing],
            MARKS,
            ["{", "", "}", "$"],
        ),
    ]
}

#[test]
fn full_tables_are_written() {
    let mut checker = Checker::new(2);
    for full in fullest(ROWS) {
        let Full {
            message,
            plain,
            rows,
        } = full;
        let what = shown(&message[..20]);
        let decoding = checker.decode(&message, LARGEST).sure(&message);
        let answer = decoding.answer;
        assert_eq!([answer.number, answer.rows], [0, rows as u32], "{what}");
        let table = decoding.table(&message);
        let (written, text) = checker.write(table, rows, plain.len()).sure(&message);
        assert_eq!(written.number, 0, "{what}");
        assert!(text == plain, "{what}");
        let (written, _) = checker.write(table, rows, plain.len() - 1).sure(&message);
        assert_eq!(written.number, 15, "{what}");
    }
}

/// Each of them, with fewer rows, against each.
#[test]
fn long_terms_are_compared() {
    let mut checker = Checker::new(3);
    let all = fullest(2_000);
    for (at, a) in all.iter().enumerate() {
        for (other, b) in all.iter().enumerate() {
            let equal = compare(&mut checker, &a.message, &b.message, LARGEST);
            assert_eq!(equal == 1, at == other, "{at} and {other}");
        }
    }
}

/// Deep lists, no two rows of which are the same, and one with another item at its bottom. The time grows with the square of their rows.
#[test]
fn deep_lists_are_compared() {
    let [Full { message, .. }, ..] = fullest(ROWS / 8);
    let mut checker = Checker::new(4);
    assert_eq!(compare(&mut checker, &message, &message, LARGEST), 1);
    let other = [b"{}", &message[1..]].concat();
    assert_eq!(compare(&mut checker, &message, &other, LARGEST), 0);
}

/// Full tables on both sides: rows that are all the same, and the last of them another.
#[test]
fn full_tables_are_compared() {
    let rounds = |last: &str| [&"1>a".repeat(ROWS - 1), last, "a$"].concat().into_bytes();
    let mut checker = Checker::new(5);
    let [message, other] = ["1>a", "2>a"].map(rounds);
    assert_eq!(compare(&mut checker, &message, &message, LARGEST), 1);
    assert_eq!(compare(&mut checker, &message, &other, LARGEST), 0);
}
