//! The machine ("The machine", "Refusal numbers"): from a message's bytes to its rows and, beside
//! them, its term.

use super::bytes::{class, closing, ends, integer, refuse, Class, Refusal};
use super::forest::{Forest, Node, Term};
use crate::header::{MARKS, MESSAGE_BYTES, REGISTER_WORDS, ROWS, ROW_WORDS, STACK_WORDS};

/// Lengths of the lent tables, in words.
#[derive(Clone, Copy, Debug)]
pub struct Lent {
    pub rows: usize,
    pub stack: usize,
    pub marks: usize,
    pub registers: usize,
}

/// 01's answer, or its refusal with the two last numbers 0, and what was made.
#[derive(Clone, PartialEq, Eq, Debug)]
pub struct Decoded {
    pub number: u32,
    /// Bytes consumed, or the refusal's place.
    pub place: u32,
    pub root: u32,
    pub used: u32,
    /// The words of the rows made; none after a refusal.
    pub rows: Vec<u32>,
    /// The term of an accepted message.
    pub term: Option<Term>,
}

/// Decodes the message at the head of a slice, with tables of the lengths lent.
pub fn decode(forest: &mut Forest, message: &[u8], lent: Lent) -> Decoded {
    match decoded(forest, message, lent) {
        Ok(decoded) => decoded,
        Err(refusal) => Decoded {
            number: refusal.number,
            place: narrow(refusal.place),
            root: 0,
            used: 0,
            rows: Vec::new(),
            term: None,
        },
    }
}

/// Refusals 1 and 2 precede all else; then the machine runs.
fn decoded(forest: &mut Forest, message: &[u8], lent: Lent) -> Result<Decoded, Refusal> {
    if message.len() > MESSAGE_BYTES {
        return refuse(1, 0);
    }
    if lent.registers < REGISTER_WORDS {
        return refuse(2, 0);
    }
    let mut machine = Machine::new(forest, message, lent);
    let (consumed, value) = machine.run()?;
    Ok(Decoded {
        number: 0,
        place: narrow(consumed),
        root: value.row,
        used: narrow(machine.rows.len()),
        rows: machine.rows.concat(),
        term: Some(value.term),
    })
}

/// An offset, a length or a count of rows as a word: none is over 1,048,576, a message's bound.
fn narrow(number: usize) -> u32 {
    number as u32
}

/// A value on the stack or in a register: its row and its term.
#[derive(Clone, Copy)]
struct Value {
    row: u32,
    term: Term,
}

/// What an item leads to: the next one's offset, or, at `$`, the bytes consumed and the value left.
enum Step {
    Next(usize),
    Done(usize, Value),
}

struct Machine<'a> {
    forest: &'a mut Forest,
    message: &'a [u8],
    /// Rows, values and noted depths that there is room for ("Numbers that bound the work").
    rows_room: usize,
    stack_room: usize,
    marks_room: usize,
    rows: Vec<[u32; ROW_WORDS]>,
    stack: Vec<Value>,
    /// The noted depths, the most recent last.
    marks: Vec<usize>,
    registers: [Option<Value>; 256],
}

impl<'a> Machine<'a> {
    fn new(forest: &'a mut Forest, message: &'a [u8], lent: Lent) -> Machine<'a> {
        Machine {
            forest,
            message,
            rows_room: (lent.rows / ROW_WORDS).min(ROWS),
            stack_room: lent.stack.min(STACK_WORDS),
            marks_room: lent.marks.min(MARKS),
            rows: Vec::new(),
            stack: Vec::new(),
            marks: Vec::new(),
            registers: [None; 256],
        }
    }

    /// Does the items from left to right up to `$`: bytes consumed, and the value left.
    fn run(&mut self) -> Result<(usize, Value), Refusal> {
        let mut at = 0;
        while let Some(&byte) = self.message.get(at) {
            match self.item(at, byte)? {
                Step::Next(next) => at = next,
                Step::Done(consumed, value) => return Ok((consumed, value)),
            }
        }
        ends(self.message)
    }

    /// Does the item, or passes the white byte, at `first`.
    fn item(&mut self, first: usize, byte: u8) -> Result<Step, Refusal> {
        let next = match class(byte) {
            Class::White => first + 1,
            Class::Integer => self.integer(first)?,
            Class::Atom => self.spelled(first, byte, 2)?,
            Class::String => self.spelled(first, byte, 3)?,
            Class::Tag => self.tag(first, byte)?,
            Class::Comment => closing(self.message, first, byte)? + 1,
            Class::Binary => self.binary(first)?,
            Class::Open => self.open(first)?,
            Class::Close => self.close(first)?,
            Class::EmptyList => self.empty_list(first)?,
            Class::Cons => self.cons(first)?,
            Class::Store => self.store(first)?,
            Class::Register => self.push_register(first, byte)?,
            Class::Comma => return refuse(4, first),
            Class::End => return Ok(Step::Done(first + 1, self.end(first)?)),
        };
        Ok(Step::Next(next))
    }

    /// Integer: 3, 4, 5, 12, 13. Its row has the two halves of the two's complement.
    fn integer(&mut self, first: usize) -> Result<usize, Refusal> {
        let (value, after) = integer(self.message, first)?;
        let bits = value as u64;
        let term = self.forest.integer(value);
        self.push_new([1, (bits >> 32) as u32, bits as u32, 0], term, first)?;
        Ok(after)
    }

    /// Atom or string: 3, 4, 12, 13.
    fn spelled(&mut self, first: usize, mark: u8, kind: u32) -> Result<usize, Refusal> {
        let close = closing(self.message, first, mark)?;
        let bytes = &self.message[first + 1..close];
        let term = match kind {
            2 => self.forest.atom(bytes),
            _ => self.forest.string(bytes),
        };
        let words = [kind, narrow(first + 1), narrow(bytes.len()), 0];
        self.push_new(words, term, first)?;
        Ok(close + 1)
    }

    /// Tag: 3, 4, 6, 12. The top value gives way to the tagged one.
    fn tag(&mut self, first: usize, mark: u8) -> Result<usize, Refusal> {
        let close = closing(self.message, first, mark)?;
        let inner = self.pop(first)?;
        let name = &self.message[first + 1..close];
        let term = self.forest.tag(name, inner.term);
        let words = [9, narrow(first + 1), narrow(name.len()), inner.row];
        self.push_new(words, term, first)?;
        Ok(close + 1)
    }

    /// `~`: 6, 7, 8, 3, 4, 12. A count at or beyond the bytes left is 3, since the closing `~` is
    /// wanted too.
    fn binary(&mut self, first: usize) -> Result<usize, Refusal> {
        let count = self.pop(first)?;
        let &Node::Integer(count) = self.forest.node(count.term) else {
            return refuse(7, first);
        };
        if count < 0 {
            return refuse(8, first);
        }
        let start = first + 1;
        let left = &self.message[start..];
        let count = usize::try_from(count).unwrap_or(usize::MAX);
        let Some(&byte) = left.get(count) else {
            return ends(self.message);
        };
        if byte != b'~' {
            return refuse(4, start + count);
        }
        let term = self.forest.binary(&left[..count]);
        self.push_new([4, narrow(start), narrow(count), 0], term, first)?;
        Ok(start + count + 1)
    }

    /// `{`: 14.
    fn open(&mut self, first: usize) -> Result<usize, Refusal> {
        if self.marks.len() >= self.marks_room {
            return refuse(14, first);
        }
        self.marks.push(self.stack.len());
        Ok(first + 1)
    }

    /// `}`: 10, 17, 12, 13. The rows: the end, then fields from last to first.
    fn close(&mut self, first: usize) -> Result<usize, Refusal> {
        let Some(noted) = self.marks.pop() else {
            return refuse(10, first);
        };
        if self.stack.len() < noted {
            return refuse(17, first);
        }
        let fields = self.stack.split_off(noted);
        self.room_for_rows(fields.len() + 1, first)?;
        self.room_for_value(first)?;
        let mut row = self.make_row([7, 0, 0, 0]);
        for field in fields.iter().rev() {
            row = self.make_row([8, field.row, row, 0]);
        }
        let terms: Vec<Term> = fields.iter().map(|field| field.term).collect();
        let term = self.forest.tuple(&terms);
        self.stack.push(Value { row, term });
        Ok(first + 1)
    }

    /// `#`: 12, 13.
    fn empty_list(&mut self, first: usize) -> Result<usize, Refusal> {
        let term = self.forest.nil();
        self.push_new([5, 0, 0, 0], term, first)?;
        Ok(first + 1)
    }

    /// `&`: 6, 7, 12. The item is popped first, then the list that it goes before.
    fn cons(&mut self, first: usize) -> Result<usize, Refusal> {
        let item = self.pop(first)?;
        let list = self.pop(first)?;
        let (Node::Nil | Node::Cell { .. }) = self.forest.node(list.term) else {
            return refuse(7, first);
        };
        let term = self.forest.cons(item.term, list.term);
        self.push_new([6, item.row, list.row, 0], term, first)?;
        Ok(first + 1)
    }

    /// `>r`: 3, 4, 6. The register byte follows at once.
    fn store(&mut self, first: usize) -> Result<usize, Refusal> {
        let Some(&register) = self.message.get(first + 1) else {
            return ends(self.message);
        };
        if class(register) != Class::Register {
            return refuse(4, first + 1);
        }
        self.registers[usize::from(register)] = Some(self.pop(first)?);
        Ok(first + 2)
    }

    /// A register byte: 9, 13. The register keeps its value; no row is made.
    fn push_register(&mut self, first: usize, register: u8) -> Result<usize, Refusal> {
        let Some(value) = self.registers[usize::from(register)] else {
            return refuse(9, first);
        };
        self.room_for_value(first)?;
        self.stack.push(value);
        Ok(first + 1)
    }

    /// `$`: 10, 11.
    fn end(&mut self, first: usize) -> Result<Value, Refusal> {
        if !self.marks.is_empty() {
            return refuse(10, first);
        }
        match self.stack[..] {
            [value] => Ok(value),
            _ => refuse(11, first),
        }
    }

    /// Pops the top value, which must lie above the most recently noted depth: 6 at the operator.
    fn pop(&mut self, operator: usize) -> Result<Value, Refusal> {
        let noted = self.marks.last().copied().unwrap_or(0);
        match self.stack.pop() {
            Some(value) if self.stack.len() >= noted => Ok(value),
            _ => refuse(6, operator),
        }
    }

    /// Makes one row and pushes its value: 12, 13 at the item's first byte. After a pop 13 cannot
    /// come: the depth has been that high before.
    fn push_new(
        &mut self,
        words: [u32; ROW_WORDS],
        term: Term,
        first: usize,
    ) -> Result<(), Refusal> {
        self.room_for_rows(1, first)?;
        self.room_for_value(first)?;
        let row = self.make_row(words);
        self.stack.push(Value { row, term });
        Ok(())
    }

    fn room_for_rows(&self, more: usize, first: usize) -> Result<(), Refusal> {
        if self.rows.len() + more > self.rows_room {
            return refuse(12, first);
        }
        Ok(())
    }

    /// Room for one value over those on the stack, what the item pops being gone from it.
    fn room_for_value(&self, first: usize) -> Result<(), Refusal> {
        if self.stack.len() >= self.stack_room {
            return refuse(13, first);
        }
        Ok(())
    }

    /// Adds a row, for which there is room, and gives its number.
    fn make_row(&mut self, words: [u32; ROW_WORDS]) -> u32 {
        self.rows.push(words);
        narrow(self.rows.len() - 1)
    }
}

#[cfg(test)]
mod tests {
    use super::super::rows::{sound, term, Table};
    use super::super::text::{length, plain};
    use super::*;

    /// More than any message can use.
    const AMPLE: Lent = Lent {
        rows: usize::MAX,
        stack: usize::MAX,
        marks: usize::MAX,
        registers: 256,
    };

    fn answer(message: &[u8], lent: Lent) -> [u32; 4] {
        let decoded = decode(&mut Forest::new(), message, lent);
        [decoded.number, decoded.place, decoded.root, decoded.used]
    }

    /// Accepted messages, those of the bench first: consumed, root, words of the rows, plain text.
    const ACCEPTED: [(&str, u32, u32, &[u32], &str); 11] = [
        ("'a'$", 4, 0, &[2, 1, 1, 0], "'a'$"),
        ("-0 $", 4, 0, &[1, 0, 0, 0], "0 $"),
        ("#2 &1 &$", 8, 4, LIST, "#2 &1 &$"),
        ("{}$", 3, 0, &[7, 0, 0, 0], "{}$"),
        ("3~a~b~$", 7, 1, &[1, 0, 3, 0, 4, 2, 3, 0], "3~a~b~$"),
        ("1 >a{aa}>a{aa}>aa$", 18, 6, ROUNDS, "{{1 1 }{1 1 }}$"),
        ("-2$,", 3, 0, &[1, !0, !1, 0], "-2 $"),
        (
            " %\\%%\"\\\"\n\"`u\\``$",
            16,
            1,
            &[3, 6, 3, 0, 9, 11, 3, 0],
            "\"\\\"\n\"`u\\``$",
        ),
        (
            "0>n1>\\n~~\t$}",
            11,
            2,
            &[1, 0, 0, 0, 1, 0, 1, 0, 4, 8, 0, 0],
            "0~~$",
        ),
        ("{1'b'}$", 7, 4, TUPLE, "{1 'b'}$"),
        (
            "4294967297>a2>ba$",
            17,
            0,
            &[1, 1, 1, 0, 1, 0, 2, 0],
            "4294967297 $",
        ),
    ];
    const LIST: &[u32] = &[5, 0, 0, 0, 1, 0, 2, 0, 6, 1, 0, 0, 1, 0, 1, 0, 6, 3, 2, 0];
    const ROUNDS: &[u32] = &[
        1, 0, 1, 0, 7, 0, 0, 0, 8, 0, 1, 0, 8, 0, 2, 0, 7, 0, 0, 0, 8, 3, 4, 0, 8, 3, 5, 0,
    ];
    const TUPLE: &[u32] = &[1, 0, 1, 0, 2, 3, 1, 0, 7, 0, 0, 0, 8, 1, 2, 0, 8, 0, 3, 0];

    #[test]
    fn accepted() {
        for (message, consumed, root, rows, text) in ACCEPTED {
            let forest = &mut Forest::new();
            let decoded = decode(forest, message.as_bytes(), AMPLE);
            let got = [decoded.number, decoded.place, decoded.root, decoded.used];
            assert_eq!(
                got,
                [0, consumed, root, (rows.len() / ROW_WORDS) as u32],
                "{message}"
            );
            assert_eq!(decoded.rows, rows, "{message}");
            let plain = plain(forest, decoded.term.unwrap(), 99).unwrap();
            assert_eq!(String::from_utf8(plain).unwrap(), text);
        }
    }

    /// Refused messages, those of the bench first: room for rows, values and noted depths; number
    /// and place.
    const REFUSED: &[(&str, [usize; 3], u32, u32)] = &[
        ("", [9; 3], 3, 0),
        ("$", [9; 3], 11, 0),
        ("1{>a}$", [9; 3], 6, 2),
        ("9223372036854775808 $", [9; 3], 5, 0),
        ("a$", [9; 3], 9, 0),
        ("1 2$", [9; 3], 11, 3),
        ("1,2$", [9; 3], 4, 1),
        ("12", [9; 3], 3, 2),
        ("-a$", [9; 3], 4, 1),
        // Before `$`; a comma.
        ("'a' ", [9; 3], 3, 4),
        (" ,", [0; 3], 4, 1),
        // Literals: 3, 4, 5, 12, 13.
        ("-", [0; 3], 3, 1),
        ("1 9999999999999999999", [1, 1, 0], 3, 21),
        (" -9999999999999999999 $", [0; 3], 5, 1),
        (" 1 $", [0; 3], 12, 1),
        (" 1 $", [1, 0, 0], 13, 1),
        ("1 2 $", [1, 1, 0], 12, 2),
        ("1 -2 $", [2, 1, 0], 13, 2),
        (" 'a\\", [0; 3], 3, 4),
        (" 'a\\\"'", [0; 3], 4, 4),
        (" 'a\\\\", [0; 3], 3, 5),
        (" 'a\\''", [0; 3], 12, 1),
        (" 'a'", [1, 0, 0], 13, 1),
        (" \"\\'\"", [0; 3], 4, 3),
        (" \"'", [0; 3], 3, 3),
        (" \"'\"", [0; 3], 12, 1),
        (" \"'\"", [1, 0, 0], 13, 1),
        // Tag: 3, 4, 6, 12.
        ("`a", [0; 3], 3, 2),
        ("`\\a", [0; 3], 4, 2),
        (" `a`$", [0; 3], 6, 1),
        ("1{`a`", [1, 1, 1], 6, 2),
        ("1 `a`$", [1, 1, 0], 12, 2),
        // Comment: 3, 4.
        ("%a\\%", [0; 3], 3, 4),
        ("%a\\a%", [0; 3], 4, 3),
        // `~`: 6, 7, 8, 3, 4, 12.
        ("~", [0; 3], 6, 0),
        ("1{~", [1, 1, 1], 6, 2),
        ("'a'~", [1, 1, 0], 7, 3),
        ("1`a`~", [2, 1, 0], 7, 4),
        ("-1~", [1, 1, 0], 8, 2),
        ("0~", [1, 1, 0], 3, 2),
        ("1~a", [1, 1, 0], 3, 3),
        ("9223372036854775807~~", [1, 1, 0], 3, 21),
        ("1~~a~", [1, 1, 0], 4, 3),
        ("0~a", [1, 1, 0], 4, 2),
        ("1~~~", [1, 1, 0], 12, 1),
        // `&`: 6, 7, 12.
        ("&", [0; 3], 6, 0),
        ("1&", [1, 1, 0], 6, 1),
        ("#{1&", [2, 2, 1], 6, 3),
        ("1#&", [2, 2, 0], 7, 2),
        ("#`a`#&", [3, 2, 0], 7, 5),
        ("##&", [2, 2, 0], 12, 2),
        // `}`: 10, 12, 13 (no message brings 17).
        ("}", [0; 3], 10, 0),
        ("{}}", [1, 1, 1], 10, 2),
        ("{}", [0, 0, 1], 12, 1),
        ("{}", [1, 0, 1], 13, 1),
        ("1{}", [2, 1, 1], 13, 2),
        ("{1 2}", [4, 2, 1], 12, 4),
        // `{`: 14.
        ("{", [0; 3], 14, 0),
        ("1{{", [1, 1, 1], 14, 2),
        // `#`: 12, 13.
        (" #", [0; 3], 12, 1),
        (" #", [1, 0, 0], 13, 1),
        // Store: 3, 4, 6.
        (">", [0; 3], 3, 1),
        (">$", [0; 3], 4, 1),
        ("1> a", [1, 1, 0], 4, 2),
        (" >a", [0; 3], 6, 1),
        ("{>a", [0, 0, 1], 6, 1),
        // Push: 9, 13.
        ("a", [0; 3], 9, 0),
        ("1>aaa", [1, 1, 0], 13, 4),
        // `$`: 10, 11.
        ("{$", [0, 0, 1], 10, 1),
        ("1{2 $", [2, 2, 1], 10, 4),
        ("1>a$", [1, 1, 0], 11, 3),
    ];

    /// The table lent for rows has three words to spare, which make no row.
    #[test]
    fn refused() {
        for &(message, [rows, stack, marks], number, place) in REFUSED {
            let rows = rows * 4 + 3;
            let lent = Lent {
                rows,
                stack,
                marks,
                ..AMPLE
            };
            let got = answer(message.as_bytes(), lent);
            assert_eq!(got, [number, place, 0, 0], "{message}");
        }
    }

    /// The bounds that lent lengths do not raise, and refusals 1 and 2.
    #[test]
    fn bounds() {
        let times = |head: &str, piece: &str, count: usize, tail: &str| {
            [head, &piece.repeat(count), tail].concat().into_bytes()
        };
        let ask = |message: &[u8]| answer(message, AMPLE);
        assert_eq!(
            ask(&times("#", "#&", 32_767, "'a'>b$")),
            [0, 65_541, 65_534, 65_536]
        );
        assert_eq!(
            ask(&times("#", "#&", 32_767, "'a'>b##")),
            [12, 65_540, 0, 0]
        );
        assert_eq!(ask(&times("1>a", "a", 4_096, "$")), [11, 4_099, 0, 0]);
        assert_eq!(ask(&times("1>a", "a", 4_097, "$")), [13, 4_099, 0, 0]);
        assert_eq!(ask(&times("", "{", 256, "$")), [10, 256, 0, 0]);
        assert_eq!(ask(&times("", "{", 257, "$")), [14, 256, 0, 0]);
        assert_eq!(
            ask(&times("{1>a", "a", 4_096, "}$")),
            [0, 4_102, 4_097, 4_098]
        );
        assert_eq!(ask(&times("1$", " ", 1_048_574, "")), [0, 2, 0, 1]);
        assert_eq!(ask(&times("1$", " ", 1_048_575, "")), [1, 0, 0, 0]);
        let registers = 255;
        let short = Lent { registers, ..AMPLE };
        assert_eq!(answer(b"", short), [2, 0, 0, 0]);
        assert_eq!(answer(&times("", " ", 1_048_577, ""), short), [1, 0, 0, 0]);
    }

    /// Rounds that double the text: few rows, and a text that soon fits nowhere.
    #[test]
    fn rounds() {
        for (count, bytes, rows) in [(20, 126, 61), (300, 1_806, 901)] {
            let forest = &mut Forest::new();
            let message = ["1 >a", &"{aa}>a".repeat(count), "a$"].concat();
            let decoded = decode(forest, message.as_bytes(), AMPLE);
            let got = (decoded.number, decoded.place, decoded.used);
            assert_eq!(got, (0, bytes, rows));
            let term = decoded.term.unwrap();
            let full = if count == 20 { 4_194_303 } else { u128::MAX };
            assert_eq!(length(forest, term), full);
            assert_eq!(plain(forest, term, 4_194_302), None);
            let text = plain(forest, term, 4_194_303);
            let fits = (count == 20).then_some(4_194_303);
            assert_eq!(text.map(|text| text.len()), fits);
        }
    }

    /// Items of the made-up messages, the frequent ones twice.
    const ITEMS: &str =
        "1  2  -1  0~~ 1~$~ 1~a~ 'a' \"a\" '\\'' `a` `u8` %% { } } # # & & >a >b a a b";

    /// Many made-up messages, from a fixed seed. Terms are the same node exactly where their texts
    /// are the same bytes.
    #[test]
    fn made_up_messages() {
        let items: Vec<&str> = ITEMS.split(' ').collect();
        let mut seed = 1_u64;
        let mut below = |bound: usize| {
            seed = seed.wrapping_mul(6_364_136_223_846_793_005).wrapping_add(1);
            (seed >> 33) as usize % bound
        };
        let forest = &mut Forest::new();
        let mut found: Vec<(Term, Vec<u8>)> = Vec::new();
        for _ in 0..50_000 {
            let count = below(10);
            let message: Vec<&str> = (0..count).map(|_| items[below(items.len())]).collect();
            let message = [message.join(" ").as_bytes(), b"$"].concat();
            let decoded = decode(forest, &message, AMPLE);
            if let Some(term) = decoded.term {
                found.push((term, checked(forest, &message, &decoded)));
            }
        }
        assert!(found.len() > 2_000);
        for (at, (term, text)) in found.iter().enumerate().take(500) {
            for (other, other_text) in &found[at..] {
                assert_eq!(term == other, text == other_text);
            }
        }
    }

    /// The text of an accepted message, after a look at what holds of each: its rows are sound and
    /// stand for its term; they are at most twice the bytes consumed; its text is a message of the
    /// same term; bytes after `$` change nothing.
    fn checked(forest: &mut Forest, message: &[u8], decoded: &Decoded) -> Vec<u8> {
        let whole = decoded.term.unwrap();
        let table = Table {
            message,
            rows: &decoded.rows,
            used: decoded.used,
            root: decoded.root,
        };
        assert!(sound(table));
        assert_eq!(term(forest, table), whole);
        assert!(decoded.used <= 2 * decoded.place);
        let text = plain(forest, whole, usize::MAX).unwrap();
        assert_eq!(length(forest, whole), text.len() as u128);
        let again = decode(forest, &text, AMPLE);
        assert_eq!((again.number, again.place), (0, text.len() as u32));
        assert_eq!(again.term, Some(whole));
        let other_tail = [&message[..decoded.place as usize], b",{~'"].concat();
        assert_eq!(decode(forest, &other_tail, AMPLE), *decoded);
        text
    }
}
