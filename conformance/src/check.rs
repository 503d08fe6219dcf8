//! One call of the library beside the independent implementation: the answers, and the end contents of every lent buffer.

use crate::guarded::{Guarded, Rest};
use crate::header::{MARKS, REGISTER_WORDS, ROWS, ROW_WORDS, STACK_WORDS};
use crate::library::{self, Compared, Decoded, Tables, Word, Written};
use crate::model::answers;
use crate::model::decode::{self, Lent};
use crate::model::forest::{Forest, Term};
use crate::model::rows::Table;
use crate::noise::Noise;
use std::fmt::Debug;

/// The longest tables of which the decoder uses every word.
pub const LARGEST: Lent = Lent {
    rows: ROWS * ROW_WORDS,
    stack: STACK_WORDS,
    marks: MARKS,
    registers: REGISTER_WORDS,
};

/// What the program ./ubfa lends itself; enough for every message here that is not about length.
pub const PROGRAM: Lent = Lent {
    rows: 1024 * ROW_WORDS,
    stack: 256,
    marks: 64,
    registers: REGISTER_WORDS,
};

/// The bytes of a message, and of a text, for which the program has room.
pub const PROGRAM_BYTES: usize = 16_384;

/// What the library answered, and where that or a lent buffer is not as the independent implementation has it.
pub struct Checked<T> {
    pub answer: T,
    pub difference: Option<String>,
}

impl<T> Checked<T> {
    /// The answer, where nothing differs.
    pub fn agreed(self) -> Result<T, String> {
        match self.difference {
            None => Ok(self.answer),
            Some(difference) => Err(difference),
        }
    }

    /// The answer, in a test that fails where something differs; `message` is what it was about.
    pub fn sure(self, message: &[u8]) -> T {
        self.agreed()
            .unwrap_or_else(|difference| panic!("{}: {difference}", shown(message)))
    }
}

/// A message's bytes for people to read, the head of it where it is long.
pub fn shown(message: &[u8]) -> String {
    const HEAD: usize = 2000;
    let head = &message[..message.len().min(HEAD)];
    let more = message.len() - head.len();
    match more {
        0 => format!("`{}`", head.escape_ascii()),
        _ => format!("`{}` and {more} bytes more", head.escape_ascii()),
    }
}

/// The decoder's answer, the words of the row table that it left, and the message's term where it is accepted.
pub struct Decoding {
    pub answer: Decoded,
    pub rows: Vec<u32>,
    pub term: Option<Term>,
}

impl Decoding {
    pub fn accepted(&self) -> bool {
        self.answer.number == 0
    }

    /// The table for writer, comparison and reader of words, as 01 hands it on.
    pub fn table<'a>(&'a self, message: &'a [u8]) -> Table<'a> {
        let Decoded { root, rows, .. } = self.answer;
        Table {
            message,
            rows: &self.rows,
            used: rows,
            root,
        }
    }
}

/// Makes the checks; `noise` is what lent buffers hold before a call.
pub struct Checker {
    pub noise: Noise,
    pub forest: Forest,
}

impl Checker {
    pub fn new(seed: u64) -> Checker {
        Checker {
            noise: Noise::new(seed),
            forest: Forest::new(),
        }
    }

    pub fn decode(&mut self, message: &[u8], lent: Lent) -> Checked<Decoding> {
        let bytes = Guarded::holding(&mut self.noise, message);
        let mut rows = Guarded::noisy(&mut self.noise, lent.rows);
        let mut stack = Guarded::noisy(&mut self.noise, lent.stack);
        let mut marks = Guarded::noisy(&mut self.noise, lent.marks);
        let mut registers = Guarded::noisy(&mut self.noise, lent.registers);
        let tables = Tables {
            rows: rows.lent_mut(),
            stack: stack.lent_mut(),
            marks: marks.lent_mut(),
            registers: registers.lent_mut(),
        };
        let answer = library::decode(bytes.lent(), tables);
        let model = decode::decode(&mut self.forest, message, lent);
        let due = Decoded {
            number: model.number,
            place: model.place,
            root: model.root,
            rows: model.used,
        };
        let rest = rest_after(model.number);
        let difference = other_answer("decoder", &answer, &due)
            .or_else(|| bytes.difference("message", &[], Rest::AsBefore))
            .or_else(|| rows.difference("rows", &model.rows, rest))
            .or_else(|| stack.difference("stack", &[], rest))
            .or_else(|| marks.difference("marks", &[], rest))
            .or_else(|| registers.difference("registers", &[], rest));
        let answer = Decoding {
            answer,
            rows: rows.lent().to_vec(),
            term: model.term,
        };
        Checked { answer, difference }
    }

    pub fn write(
        &mut self,
        table: Table,
        scratch: usize,
        output: usize,
    ) -> Checked<(Written, Vec<u8>)> {
        let side = Side::new(&mut self.noise, table);
        let mut scratch_words = Guarded::noisy(&mut self.noise, scratch);
        let mut bytes = Guarded::noisy(&mut self.noise, output);
        let answer = library::write(side.lent(), scratch_words.lent_mut(), bytes.lent_mut());
        let model = answers::write(&mut self.forest, table, scratch, output);
        let due = Written {
            number: model.number,
            bytes: model.text.len() as u64,
        };
        let difference = other_answer("writer", &answer, &due)
            .or_else(|| side.difference())
            .or_else(|| scratch_words.difference("scratch", &[], rest_after(model.number)))
            .or_else(|| bytes.difference("output", &model.text, Rest::AsBefore));
        let text = bytes.lent().iter().copied().take(answer.bytes as usize);
        Checked {
            answer: (answer, text.collect()),
            difference,
        }
    }

    pub fn compare(&mut self, a: Table, b: Table, scratch: usize) -> Checked<Compared> {
        let side_a = Side::new(&mut self.noise, a);
        let side_b = Side::new(&mut self.noise, b);
        let mut words = Guarded::noisy(&mut self.noise, scratch);
        let answer = library::compare(side_a.lent(), side_b.lent(), words.lent_mut());
        let model = answers::compare(&mut self.forest, a, b, scratch);
        let due = Compared {
            number: model.number,
            equal: model.equal,
        };
        let difference = other_answer("comparison", &answer, &due)
            .or_else(|| side_a.difference())
            .or_else(|| side_b.difference())
            .or_else(|| words.difference("scratch", &[], rest_after(model.number)));
        Checked { answer, difference }
    }

    /// Word `k` of the block at the table's root.
    pub fn read_word(&mut self, table: Table, k: u64) -> Checked<Word> {
        let side = Side::new(&mut self.noise, table);
        let answer = library::read_word(side.lent(), k);
        let model = answers::read_word(table, k);
        let due = Word {
            number: model.number,
            value: model.value,
        };
        let difference =
            other_answer("reader of words", &answer, &due).or_else(|| side.difference());
        Checked { answer, difference }
    }
}

/// Working memory stays as it was after 1 and 2, and is zero after every other answer.
fn rest_after(number: u32) -> Rest {
    match number {
        1 | 2 => Rest::AsBefore,
        _ => Rest::Zero,
    }
}

fn other_answer<T: PartialEq + Debug>(function: &str, library: &T, model: &T) -> Option<String> {
    let differs = library != model;
    differs.then(|| format!("{function}: library answers {library:?}, model answers {model:?}"))
}

/// A message and its table, lent for reading.
struct Side<'a> {
    message: Guarded<'a, u8>,
    rows: Guarded<'a, u32>,
    used: u32,
    root: u32,
}

impl<'a> Side<'a> {
    fn new(noise: &mut Noise, table: Table<'a>) -> Side<'a> {
        Side {
            message: Guarded::holding(noise, table.message),
            rows: Guarded::holding(noise, table.rows),
            used: table.used,
            root: table.root,
        }
    }

    fn lent(&self) -> Table<'_> {
        Table {
            message: self.message.lent(),
            rows: self.rows.lent(),
            used: self.used,
            root: self.root,
        }
    }

    fn difference(&self) -> Option<String> {
        self.message
            .difference("message", &[], Rest::AsBefore)
            .or_else(|| self.rows.difference("rows", &[], Rest::AsBefore))
    }
}
