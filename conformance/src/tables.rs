//! Row tables that no decoder made, sound and not.

use crate::header::ROW_WORDS;
use crate::messages::{self, WORD_NAMES};
use crate::model::rows::Table;
use crate::noise::Noise;

pub const INTEGER: u32 = 1;
pub const ATOM: u32 = 2;
pub const STRING: u32 = 3;
pub const BINARY: u32 = 4;
pub const EMPTY_LIST: u32 = 5;
pub const CELL: u32 = 6;
pub const TUPLE_END: u32 = 7;
pub const FIELD: u32 = 8;
pub const TAG: u32 = 9;

/// A row's words: its kind, then the other three.
pub type Row = [u32; ROW_WORDS];

/// A message with its table, owned, to be damaged.
#[derive(Clone, Debug)]
pub struct Made {
    pub message: Vec<u8>,
    pub rows: Vec<u32>,
    pub used: u32,
    pub root: u32,
}

impl Made {
    /// A table of just these rows, the last of them the root.
    pub fn of_rows(message: &[u8], rows: &[Row]) -> Made {
        Made {
            message: message.to_vec(),
            rows: rows.concat(),
            used: rows.len() as u32,
            root: (rows.len() as u32).wrapping_sub(1),
        }
    }

    pub fn of_table(table: Table) -> Made {
        Made {
            message: table.message.to_vec(),
            rows: table.rows.to_vec(),
            used: table.used,
            root: table.root,
        }
    }

    pub fn table(&self) -> Table<'_> {
        Table {
            message: &self.message,
            rows: &self.rows,
            used: self.used,
            root: self.root,
        }
    }

    /// A sound table of up to 30 rows, with spans and references anywhere that they may lie.
    pub fn random(noise: &mut Noise) -> Made {
        let mut message = messages::from_alphabet(noise);
        message.extend(*noise.pick(&WORD_NAMES));
        let mut rows: Vec<Row> = Vec::new();
        for _ in 0..=noise.below(30) {
            let row = random_row(noise, &message, &rows);
            rows.push(row);
        }
        let mut made = Made::of_rows(&message, &rows);
        made.root = noise.below(rows.len()) as u32;
        let spare = noise.below(9);
        made.rows.extend((0..spare).map(|_| noise.word()));
        made
    }

    /// One change to a word, the counts, the order of the rows or the message; some leave the table sound.
    pub fn damage(&mut self, noise: &mut Noise) {
        match noise.below(10) {
            0 => self.used = near(noise, self.used),
            1 => self.root = near(noise, self.root),
            2 => self.rows.truncate(noise.below(self.rows.len() + 1)),
            3 => self.message.truncate(noise.below(self.message.len() + 1)),
            4 if !self.message.is_empty() => {
                let at = noise.below(self.message.len());
                self.message[at] = *noise.pick(b"\\\\'\"`a");
            }
            5 if self.rows.len() >= 2 * ROW_WORDS => self.exchange_rows(noise),
            _ if !self.rows.is_empty() => {
                let words = self.rows.len().min(self.used as usize * ROW_WORDS).max(1);
                let at = noise.below(words);
                self.rows[at] = near(noise, self.rows[at]);
            }
            _ => self.used = self.used.wrapping_add(1),
        }
    }

    /// Makes a tag's row the root, where there is one.
    pub fn ask_tag(&mut self, noise: &mut Noise) {
        let rows = self.rows.chunks_exact(ROW_WORDS).enumerate();
        let tags = rows.filter(|(_, row)| row[0] == TAG).map(|(at, _)| at);
        let tags: Vec<usize> = tags.collect();
        if !tags.is_empty() {
            self.root = *noise.pick(&tags) as u32;
        }
    }

    fn exchange_rows(&mut self, noise: &mut Noise) {
        let rows = self.rows.len() / ROW_WORDS;
        let (a, b) = (noise.below(rows), noise.below(rows));
        for word in 0..ROW_WORDS {
            self.rows.swap(a * ROW_WORDS + word, b * ROW_WORDS + word);
        }
    }
}

/// A word close to this one, a small one, or any.
fn near(noise: &mut Noise, word: u32) -> u32 {
    match noise.below(6) {
        0 => word.wrapping_add(1),
        1 => word.wrapping_sub(1),
        2 | 3 => noise.below(10) as u32,
        4 => *noise.pick(&[u32::MAX, 1 << 31, 1 << 16]),
        _ => noise.word(),
    }
}

fn random_row(noise: &mut Noise, message: &[u8], rows: &[Row]) -> Row {
    let earlier = |noise: &mut Noise, kinds: &[u32]| {
        let found = (0..rows.len()).filter(|&at| kinds.contains(&rows[at][0]));
        let found: Vec<usize> = found.collect();
        (!found.is_empty()).then(|| *noise.pick(&found) as u32)
    };
    let any = noise.below(rows.len().max(1)) as u32;
    let list = earlier(noise, &[EMPTY_LIST, CELL]);
    let tuple = earlier(noise, &[TUPLE_END, FIELD]);
    match (1 + noise.below(9) as u32, list, tuple) {
        (CELL, Some(rest), _) => [CELL, any, rest, 0],
        (FIELD, _, Some(rest)) => [FIELD, any, rest, 0],
        (TAG, _, _) if !rows.is_empty() => {
            let [start, length] = tag_span(noise, message);
            let binary = earlier(noise, &[BINARY]);
            [TAG, start, length, binary.unwrap_or(any)]
        }
        (ATOM, _, _) => spanned(ATOM, span(noise, message, b'\'')),
        (STRING, _, _) => spanned(STRING, span(noise, message, b'"')),
        (BINARY, _, _) => spanned(BINARY, any_span(noise, message)),
        (CELL | EMPTY_LIST, _, _) => [EMPTY_LIST, 0, 0, 0],
        (FIELD | TUPLE_END, _, _) => [TUPLE_END, 0, 0, 0],
        _ => [INTEGER, near(noise, 0), noise.word(), 0],
    }
}

fn spanned(kind: u32, [start, length]: [u32; 2]) -> Row {
    [kind, start, length, 0]
}

fn any_span(noise: &mut Noise, message: &[u8]) -> [u32; 2] {
    let start = noise.below(message.len() + 1);
    let length = noise.below(message.len() - start + 1);
    [start as u32, length as u32]
}

/// A span with nothing in it that would have to be escaped; empty where chance found another.
fn span(noise: &mut Noise, message: &[u8], mark: u8) -> [u32; 2] {
    let [start, length] = any_span(noise, message);
    let bytes = &message[start as usize..][..length as usize];
    match bytes.iter().any(|&byte| byte == mark || byte == b'\\') {
        true => [start, 0],
        false => [start, length],
    }
}

/// A span for a tag's name: the known name at the message's end, or any.
fn tag_span(noise: &mut Noise, message: &[u8]) -> [u32; 2] {
    match WORD_NAMES.iter().find(|name| message.ends_with(name)) {
        Some(name) if noise.once_in(2) => {
            [message.len() - name.len(), name.len()].map(|number| number as u32)
        }
        _ => span(noise, message, b'`'),
    }
}
