//! Tables that no decoder made: every unsoundness of 01 by hand, and thousands of damaged tables.

use conformance::check::Checker;
use conformance::header::{ROWS, ROW_WORDS};
use conformance::messages::{any, lengths};
use conformance::noise::Noise;
use conformance::tables::{
    Made, Row, ATOM, BINARY, CELL, EMPTY_LIST, FIELD, INTEGER, STRING, TAG, TUPLE_END,
};

const NIL: Row = [EMPTY_LIST, 0, 0, 0];
const END: Row = [TUPLE_END, 0, 0, 0];

/// What the hand-made rows have their spans in.
const MESSAGE: &[u8] = b"ab\\\\\\'\\\"\\`'\"`\\a";

fn refusal_or_0(sound: bool) -> u32 {
    if sound {
        0
    } else {
        16
    }
}

/// Writer, comparison on both sides, and reader of words judge the table alike.
fn judge(checker: &mut Checker, made: &Made, sound: bool, what: &str) {
    let table = made.table();
    let number = refusal_or_0(sound);
    let good = Made::of_rows(b"", &[NIL]);
    let scratch = made.used as usize + 1;
    let (written, _) = checker.write(table, scratch, 1 << 12).sure(what.as_bytes());
    assert_eq!(written.number, number, "writer: {what}");
    let left = checker
        .compare(table, good.table(), scratch)
        .sure(what.as_bytes());
    assert_eq!(left.number, number, "comparison: {what}");
    let right = checker
        .compare(good.table(), table, scratch)
        .sure(what.as_bytes());
    assert_eq!(right.number, number, "comparison: {what}");
    let word = checker.read_word(table, 0).sure(what.as_bytes());
    assert_eq!(word.number == 16, !sound, "reader of words: {what}");
}

/// The row by itself at the end of a table, as the root and hidden under another root.
fn judge_row(checker: &mut Checker, row: Row, sound: bool) {
    let earlier = [
        NIL,
        END,
        [INTEGER, 0, 1, 0],
        [CELL, 2, 0, 0],
        [FIELD, 2, 1, 0],
    ];
    let mut rows = earlier.to_vec();
    rows.push(row);
    let shown = Made::of_rows(MESSAGE, &rows);
    let hidden = Made {
        root: 0,
        ..shown.clone()
    };
    let what = format!("row {row:?}");
    judge(checker, &shown, sound, &what);
    judge(checker, &hidden, sound, &what);
}

fn judge_rows(seed: u64, cases: &[(Row, bool)]) {
    let mut checker = Checker::new(seed);
    for &(row, sound) in cases {
        judge_row(&mut checker, row, sound);
    }
}

#[test]
fn unknown_kinds() {
    let cases: [(Row, bool); 5] = [
        ([0, 0, 0, 0], false),
        ([10, 0, 0, 0], false),
        ([EMPTY_LIST + 256, 0, 0, 0], false),
        ([u32::MAX, 0, 0, 0], false),
        (NIL, true),
    ];
    judge_rows(1, &cases);
}

#[test]
fn spare_words() {
    let sound: [Row; 8] = [
        [INTEGER, u32::MAX, u32::MAX, 0],
        [ATOM, 0, 2, 0],
        [STRING, 0, 2, 0],
        [BINARY, 0, 2, 0],
        NIL,
        [CELL, 2, 0, 0],
        END,
        [FIELD, 2, 1, 0],
    ];
    let mut checker = Checker::new(2);
    for row in sound {
        judge_row(&mut checker, row, true);
        let first_spare = match row[0] {
            EMPTY_LIST | TUPLE_END => 1,
            _ => ROW_WORDS - 1,
        };
        for at in first_spare..ROW_WORDS {
            for word in [1, 1 << 31] {
                let mut spoilt = row;
                spoilt[at] = word;
                judge_row(&mut checker, spoilt, false);
            }
        }
    }
}

#[test]
fn spans_outside_the_message() {
    let end = MESSAGE.len() as u32;
    let spans = [
        (0, 2, true),
        (end, 0, true),
        (end, 1, false),
        (end + 1, 0, false),
        (0, end + 1, false),
        (1, u32::MAX, false),
        (u32::MAX, 2, false),
        (u32::MAX, 1, false),
    ];
    let cases = spans.map(|(start, length, sound)| {
        [
            ([ATOM, start, length, 0], sound),
            ([STRING, start, length, 0], sound),
            ([BINARY, start, length, 0], sound),
            ([TAG, start, length, 2], sound),
        ]
    });
    judge_rows(3, cases.as_flattened());
}

/// The pieces of MESSAGE, in which kinds they may stand: atom, string, tag. A binary may hold each of them.
#[test]
fn escapes_and_closing_marks() {
    let pieces: [(u32, u32, [bool; 3]); 10] = [
        (0, 2, [true, true, true]),    // ab
        (2, 2, [true, true, true]),    // \\
        (2, 1, [false, false, false]), // \ at the end
        (2, 3, [false, false, false]), // \\\
        (4, 2, [true, false, false]),  // \'
        (6, 2, [false, true, false]),  // \"
        (8, 2, [false, false, true]),  // \`
        (10, 1, [false, true, true]),  // '
        (11, 1, [true, false, true]),  // "
        (12, 1, [true, true, false]),  // `
    ];
    let mut checker = Checker::new(4);
    for (start, length, [atom, string, tag]) in pieces {
        judge_row(&mut checker, [ATOM, start, length, 0], atom);
        judge_row(&mut checker, [STRING, start, length, 0], string);
        judge_row(&mut checker, [TAG, start, length, 2], tag);
        judge_row(&mut checker, [BINARY, start, length, 0], true);
    }
    judge_rows(5, &[([ATOM, 13, 2, 0], false), ([BINARY, 13, 2, 0], true)]);
}

/// The row itself is row 5; before it stand an empty list, a tuple end, an integer, a cell and a field.
#[test]
fn references() {
    let mut cases = vec![([TAG, 0, 2, 4], true)];
    for late in [5, 6, u32::MAX, 1 << 30] {
        cases.extend([
            ([CELL, late, 0, 0], false),
            ([CELL, 2, late, 0], false),
            ([FIELD, late, 1, 0], false),
            ([FIELD, 2, late, 0], false),
            ([TAG, 0, 2, late], false),
        ]);
    }
    for item in 0..5 {
        cases.extend([([CELL, item, 0, 0], true), ([FIELD, item, 1, 0], true)]);
    }
    for rest in 0..5 {
        let (list, tuple) = ([0, 3].contains(&rest), [1, 4].contains(&rest));
        cases.extend([([CELL, 2, rest, 0], list), ([FIELD, 2, rest, 0], tuple)]);
    }
    judge_rows(6, &cases);
}

/// A reference from an early row to a later one that is sound in itself.
#[test]
fn references_forward() {
    let mut checker = Checker::new(7);
    let rows: [Row; 3] = [NIL, [CELL, 2, 0, 0], [INTEGER, 0, 1, 0]];
    judge(
        &mut checker,
        &Made::of_rows(b"", &rows),
        false,
        "item forward",
    );
    let rows: [Row; 3] = [NIL, [CELL, 0, 2, 0], NIL];
    judge(
        &mut checker,
        &Made::of_rows(b"", &rows),
        false,
        "rest forward",
    );
}

#[test]
fn counts_and_roots() {
    let two = Made::of_rows(b"", &[NIL, END]);
    let cut = |words: usize, used: u32, root: u32| Made {
        rows: two.rows[..words].to_vec(),
        used,
        root,
        ..two.clone()
    };
    let whole = 2 * ROW_WORDS;
    let cases = [
        (cut(whole, 2, 1), true),
        (cut(whole, 1, 0), true),
        (cut(whole, 3, 0), false),
        (cut(whole - 1, 2, 0), false),
        (cut(whole - 1, 1, 0), true),
        (cut(whole, 2, 2), false),
        (cut(whole, 1, 1), false),
        (cut(whole, 2, u32::MAX), false),
        (cut(whole, 0, 0), false),
        (cut(0, 0, 0), false),
        (cut(0, 1, 0), false),
    ];
    let mut checker = Checker::new(8);
    for (made, sound) in cases {
        judge(&mut checker, &made, sound, &format!("{made:?}"));
    }
}

/// A table may be longer than 65,536 rows, but no more of them may be claimed.
#[test]
fn claims_past_the_bound() {
    let mut checker = Checker::new(9);
    let mut made = Made::of_rows(b"", &vec![NIL; ROWS + 1]);
    made.root = 0;
    judge(&mut checker, &made, false, "one row too many");
    made.used -= 1;
    let (written, text) = checker.write(made.table(), ROWS, 9).sure(b"");
    assert_eq!((written.number, text.as_slice()), (0, b"#$".as_slice()));
}

/// Rows claimed that no scratch could match: 2 comes before 16, and the two counts together are more than 32 bits hold.
#[test]
fn claims_past_32_bits() {
    let mut checker = Checker::new(10);
    let claiming = |used: u32| Made {
        used,
        ..Made::of_rows(b"", &[NIL])
    };
    for (a, b) in [
        (u32::MAX, 2),
        (2, u32::MAX),
        (1 << 31, 1 << 31),
        (u32::MAX, u32::MAX),
    ] {
        for scratch in [0, 1, 9] {
            let (a, b) = (claiming(a), claiming(b));
            let compared = checker.compare(a.table(), b.table(), scratch).sure(b"");
            assert_eq!(compared.number, 2);
        }
        let (written, _) = checker.write(claiming(a).table(), 1, 9).sure(b"");
        assert_eq!(written.number, 2);
        let word = checker.read_word(claiming(a).table(), 0).sure(b"");
        assert_eq!(word.number, 16);
    }
}

/// A sound table, made by the decoder or drawn row by row, and damaged now and then.
fn drawn(noise: &mut Noise, checker: &mut Checker) -> Made {
    let mut made = Made::random(noise);
    if noise.once_in(2) {
        let message = any(noise);
        let lent = lengths(noise, message.len());
        let decoding = checker.decode(&message, lent).sure(&message);
        if decoding.accepted() {
            made = Made::of_table(decoding.table(&message));
        }
    }
    for _ in 0..noise.below(3) {
        made.damage(noise);
    }
    made
}

/// The writer's, comparison's and word reader's numbers for two drawn tables.
fn three_answers(seed: u64) -> [u32; 3] {
    let mut noise = Noise::new(seed);
    let mut checker = Checker::new(noise.draw());
    let made = drawn(&mut noise, &mut checker);
    let other = match noise.below(2) {
        0 => drawn(&mut noise, &mut checker),
        _ => made.clone(),
    };
    let enough = |used: u32, noise: &mut Noise| (used as usize).min(2000) + noise.below(3);
    let scratch = enough(made.used, &mut noise);
    let what = format!("seed {seed}: {made:?}, {other:?}");
    let written = checker
        .write(made.table(), scratch, 1 << 11)
        .sure(what.as_bytes());
    let scratch = enough(made.used.saturating_add(other.used), &mut noise);
    let compared = checker
        .compare(made.table(), other.table(), scratch)
        .sure(what.as_bytes());
    let mut asked = made;
    asked.ask_tag(&mut noise);
    let k = noise.below(4) as u64;
    let word = checker.read_word(asked.table(), k).sure(what.as_bytes());
    [written.0.number, compared.number, word.number]
}

#[test]
fn damaged_tables_agree() {
    const TABLES: u64 = 50_000;
    let mut counts = [[0; 21]; 3];
    for seed in 0..TABLES {
        let answers = three_answers(seed);
        for (count, number) in counts.iter_mut().zip(answers) {
            count[number as usize] += 1;
        }
    }
    let names = ["writer", "comparison", "reader of words"];
    for (name, count) in names.iter().zip(counts) {
        let [answered, unsound] = [count[0], count[16]];
        println!("{name}: {answered} answered, {unsound} refused 16 of {TABLES}");
        assert!(answered >= 1_000 && unsound >= 1_000, "{name}");
    }
}
