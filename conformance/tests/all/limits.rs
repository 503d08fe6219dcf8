//! Every lent length at just enough and at one less, and the bounds of 01 where more is lent.

use conformance::check::{shown, Checker, PROGRAM};
use conformance::header::{MARKS, MESSAGE_BYTES, REGISTER_WORDS, ROWS, ROW_WORDS, STACK_WORDS};
use conformance::messages::{filled, spell, Value};
use conformance::model::decode::{decode, Lent};
use conformance::model::forest::Forest;
use conformance::noise::Noise;

/// A table of the decoder: its length, to be set, and the refusal where it is too short.
type Table = (fn(&mut Lent) -> &mut usize, u32);

const ROW_TABLE: Table = (|lent| &mut lent.rows, 12);
const STACK: Table = (|lent| &mut lent.stack, 13);
const NOTED: Table = (|lent| &mut lent.marks, 14);
const REGISTERS: Table = (|lent| &mut lent.registers, 2);

fn with(mut lent: Lent, table: Table, length: usize) -> Lent {
    *table.0(&mut lent) = length;
    lent
}

/// The least length of a table at which the model accepts, with plenty in all others.
fn least(message: &[u8], table: Table) -> usize {
    let mut plenty = PROGRAM;
    let (mut low, mut high) = (0, *table.0(&mut plenty));
    while low < high {
        let middle = low + (high - low) / 2;
        let lent = with(plenty, table, middle);
        match decode(&mut Forest::new(), message, lent).number {
            0 => high = middle,
            _ => low = middle + 1,
        }
    }
    high
}

/// Bench messages, some with a need of their own, and generated ones.
fn messages() -> Vec<Vec<u8>> {
    let fixed: [&[u8]; 9] = [
        b"'a'$",
        b"-0 $",
        b"#2 &1 &$",
        b"{}$",
        b"3~a~b~$",
        b"1 >a{aa}>a{aa}>aa$",
        b"{{{1 2 3}{{}}}4 5 6 7{8}}$",
        b"1>a{aaaa{}{aaaaaa{{{}}}}}$",
        b"##1&&\"s\"&`t``u`$",
    ];
    let mut noise = Noise::new(0x11);
    let generated = (0..300).map(|size| {
        let value = Value::random(&mut noise, 1 + size % 40);
        spell(&mut noise, &value)
    });
    let fixed = fixed.iter().map(|message| message.to_vec());
    fixed.chain(generated).collect()
}

fn expect(checker: &mut Checker, message: &[u8], lent: Lent, number: u32) {
    let answer = checker.decode(message, lent).sure(message).answer;
    assert_eq!(answer.number, number, "{}, {lent:?}", shown(message));
}

#[test]
fn decoder_accepts_at_the_least_lengths_and_not_below() {
    let mut checker = Checker::new(1);
    for message in messages() {
        let mut all_least = PROGRAM;
        for table in [ROW_TABLE, STACK, NOTED, REGISTERS] {
            let need = least(&message, table);
            *table.0(&mut all_least) = need;
            expect(&mut checker, &message, with(PROGRAM, table, need), 0);
            if need > 0 {
                let less = with(PROGRAM, table, need - 1);
                expect(&mut checker, &message, less, table.1);
            }
        }
        assert_eq!(all_least.registers, REGISTER_WORDS);
        expect(&mut checker, &message, all_least, 0);
        part_rows(&mut checker, &message, all_least);
    }
}

/// Words that make no whole row are no room: all the lengths from one row less to one row more.
fn part_rows(checker: &mut Checker, message: &[u8], lent: Lent) {
    let need = lent.rows;
    assert_eq!(need % ROW_WORDS, 0);
    for words in need - ROW_WORDS..need + ROW_WORDS {
        let number = if words < need { 12 } else { 0 };
        expect(checker, message, with(lent, ROW_TABLE, words), number);
    }
}

#[test]
fn writer_and_comparison_work_at_the_least_lengths_and_not_below() {
    let mut checker = Checker::new(2);
    let messages = messages();
    for pair in messages.windows(2) {
        let (a, b) = (&pair[0], &pair[1]);
        let left = checker.decode(a, PROGRAM).sure(a);
        let right = checker.decode(b, PROGRAM).sure(b);
        let (side_a, side_b) = (left.table(a), right.table(b));
        let scratch = side_a.used as usize;
        let (written, text) = checker.write(side_a, scratch, 1 << 16).sure(a);
        assert_eq!(written.number, 0, "{}", shown(a));
        let output = text.len();
        let lengths = [
            (scratch, output, 0),
            (scratch, output - 1, 15),
            (scratch - 1, output, 2),
        ];
        for (scratch, output, number) in lengths {
            let (written, _) = checker.write(side_a, scratch, output).sure(a);
            assert_eq!(written.number, number, "{}", shown(a));
        }
        let scratch = (side_a.used + side_b.used) as usize;
        for (scratch, number) in [(scratch, 0), (scratch - 1, 2)] {
            let compared = checker.compare(side_a, side_b, scratch).sure(a);
            assert_eq!(compared.number, number, "{} {}", shown(a), shown(b));
        }
    }
}

/// A message that fills a table of the greatest length, and is refused where `piece` comes once more.
struct Full {
    head: &'static [u8],
    piece: &'static [u8],
    times: usize,
    tail: Vec<u8>,
    refusal: u32,
}

impl Full {
    fn message(&self, times: usize) -> Vec<u8> {
        [self.head, &self.piece.repeat(times), &self.tail].concat()
    }
}

fn full(
    head: &'static [u8],
    piece: &'static [u8],
    times: usize,
    tail: &[u8],
    refusal: u32,
) -> Full {
    let tail = tail.to_vec();
    Full {
        head,
        piece,
        times,
        tail,
        refusal,
    }
}

#[test]
fn longer_tables_are_not_used_past_their_bounds() {
    let longer = Lent {
        rows: (ROWS + 3) * ROW_WORDS + 1,
        stack: STACK_WORDS + 7,
        marks: MARKS + 5,
        registers: REGISTER_WORDS + 9,
    };
    let closing = [b"}".repeat(MARKS).as_slice(), b"$"].concat();
    let cases = [
        full(b"", b"#>a", ROWS, b"a$", 12),
        full(b"1>a{", b"a", STACK_WORDS, b"}$", 13),
        full(b"{", b"1 ", STACK_WORDS, b"}$", 13),
        full(b"", b"{", MARKS, &closing, 14),
    ];
    let mut checker = Checker::new(3);
    for case in cases {
        let message = case.message(case.times);
        expect(&mut checker, &message, longer, 0);
        let place = case.head.len() + case.piece.len() * case.times;
        let message = case.message(case.times + 1);
        let answer = checker.decode(&message, longer).sure(&message).answer;
        let numbers = [answer.number, answer.place];
        assert_eq!(numbers, [case.refusal, place as u32], "{}", shown(&message));
    }
}

/// Messages of a given length, and the decoder's number and place where it is the greatest allowed.
fn of_length(bytes: usize) -> [(Vec<u8>, u32, usize); 5] {
    let filled = |head: &[u8], byte: u8, tail: &[u8]| filled(bytes, head, byte, tail);
    [
        (filled(b"'", b'a', b"'$"), 0, bytes),
        (filled(b"1$", b',', b""), 0, 2),
        (filled(b"-", b'0', b"7$"), 0, bytes),
        (filled(b"", b'9', b" "), 5, 0),
        (filled(b"", b' ', b""), 3, bytes),
    ]
}

#[test]
fn messages_up_to_the_bound_are_read_and_longer_ones_refused() {
    let mut checker = Checker::new(4);
    for (message, number, place) in of_length(MESSAGE_BYTES) {
        let answer = checker.decode(&message, PROGRAM).sure(&message).answer;
        let numbers = [answer.number, answer.place];
        assert_eq!(numbers, [number, place as u32], "{}", shown(&message));
    }
    for (message, _, _) in of_length(MESSAGE_BYTES + 1) {
        let answer = checker.decode(&message, PROGRAM).sure(&message).answer;
        assert_eq!([answer.number, answer.place], [1, 0], "{}", shown(&message));
    }
}

/// The other functions, too, work on a message of the greatest length.
#[test]
fn the_longest_atom_is_written_and_compared() {
    let (message, ..) = of_length(MESSAGE_BYTES)[0].clone();
    let mut other = message.clone();
    other[MESSAGE_BYTES - 3] = b'b';
    let mut checker = Checker::new(5);
    let left = checker.decode(&message, PROGRAM).sure(&message);
    let right = checker.decode(&other, PROGRAM).sure(&other);
    let (side_a, side_b) = (left.table(&message), right.table(&other));
    let (written, text) = checker.write(side_a, 1, MESSAGE_BYTES).sure(&message);
    assert_eq!(written.number, 0);
    assert!(text == message);
    let same = checker.compare(side_a, side_a, 2).sure(&message);
    let different = checker.compare(side_a, side_b, 2).sure(&message);
    assert_eq!([same.equal, different.equal], [1, 0]);
}
