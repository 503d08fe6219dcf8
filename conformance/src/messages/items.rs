//! Items strung together, mostly such that each can stand where it does.

use super::register;
use super::value::{self, quoted};
use crate::noise::Noise;

/// A message of items in a row, one in thirty of them any item at all; the end mostly leaves one value and no depth noted.
pub fn strung(noise: &mut Noise) -> Vec<u8> {
    let mut sketch = Sketch::default();
    for _ in 0..noise.below(30) {
        if noise.once_in(30) {
            let item = noise.pick(ANY_ITEMS);
            sketch.bytes.extend_from_slice(item);
        } else {
            sketch.item(noise);
        }
    }
    if !noise.once_in(8) {
        sketch.finish(noise);
    }
    sketch.bytes.push(b'$');
    sketch.bytes
}

/// Items of every sort, with some that are refused wherever they stand.
const ANY_ITEMS: &[&[u8]] = &[
    b"1 ",
    b"-0 ",
    b"9223372036854775808 ",
    b"-9223372036854775809 ",
    b"- ",
    b"'a'",
    b"\"\\\"\"",
    b"'\\a'",
    b"`t`",
    b"%c%",
    b"%\\c%",
    b"~",
    b"-1 ~",
    b"5~abc~",
    b"'a'~b~",
    b"#",
    b"&",
    b"1 2 &",
    b"{",
    b"}",
    b">a",
    b">,",
    b"a",
    b"\xee",
    b",",
    b"$",
];

/// What a value on the sketched stack can serve as.
#[derive(Clone, Copy, PartialEq, Eq)]
enum Sort {
    Integer(i64),
    List,
    Other,
}

/// A rough picture of the machine, good enough to choose items that can stand.
#[derive(Default)]
struct Sketch {
    bytes: Vec<u8>,
    stack: Vec<Sort>,
    marks: Vec<usize>,
    held: Vec<(u8, Sort)>,
}

impl Sketch {
    fn noted(&self) -> usize {
        self.marks.last().copied().unwrap_or(0)
    }

    /// The values above the noted depth, from the first to the last.
    fn above(&self) -> &[Sort] {
        &self.stack[self.noted()..]
    }

    fn item(&mut self, noise: &mut Noise) {
        match (noise.below(18), self.above()) {
            (0 | 1, &[.., Sort::Integer(count)]) if (0..99).contains(&count) => {
                self.binary(noise, count as usize);
            }
            (2..=5, &[.., Sort::List, _]) => {
                self.stack.truncate(self.stack.len() - 2);
                self.pushed(b"&", Sort::List);
            }
            (6, &[.., _]) => self.tag(noise),
            (7 | 8, &[.., top]) => self.store(noise, top),
            (9 | 10, _) if !self.held.is_empty() => {
                let (name, sort) = *noise.pick(&self.held);
                self.pushed(&[name], sort);
            }
            (11 | 12, _) if !self.marks.is_empty() => self.close(),
            (13, _) => self.open(),
            (14, _) => self.bytes.push(*noise.pick(b" \t\n\r")),
            (15, _) => {
                let remark = value::name(noise, b'%');
                quoted(&mut self.bytes, b'%', &remark);
            }
            _ => self.literal(noise),
        }
    }

    fn pushed(&mut self, bytes: &[u8], sort: Sort) {
        self.bytes.extend_from_slice(bytes);
        self.stack.push(sort);
    }

    fn literal(&mut self, noise: &mut Noise) {
        match noise.below(6) {
            0 | 1 => self.pushed(b"#", Sort::List),
            2 => {
                quoted(&mut self.bytes, b'\'', &value::name(noise, b'\''));
                self.stack.push(Sort::Other);
            }
            3 => {
                quoted(&mut self.bytes, b'"', &value::name(noise, b'"'));
                self.stack.push(Sort::Other);
            }
            _ => {
                let number = value::integer(noise);
                self.pushed(format!("{number} ").as_bytes(), Sort::Integer(number));
            }
        }
    }

    fn binary(&mut self, noise: &mut Noise, count: usize) {
        let bytes: Vec<u8> = (0..count).map(|_| noise.byte()).collect();
        quoted(&mut self.bytes, b'~', &bytes);
        self.stack.pop();
        self.stack.push(Sort::Other);
    }

    fn tag(&mut self, noise: &mut Noise) {
        quoted(&mut self.bytes, b'`', &value::tag_name(noise));
        self.stack.pop();
        self.stack.push(Sort::Other);
    }

    fn store(&mut self, noise: &mut Noise, top: Sort) {
        let name = register(noise);
        self.held.retain(|(other, _)| *other != name);
        self.held.push((name, top));
        self.bytes.extend([b'>', name]);
        self.stack.pop();
    }

    fn open(&mut self) {
        self.bytes.push(b'{');
        self.marks.push(self.stack.len());
    }

    fn close(&mut self) {
        self.stack.truncate(self.noted());
        self.marks.pop();
        self.pushed(b"}", Sort::Other);
    }

    /// Closes what is open and leaves one value.
    fn finish(&mut self, noise: &mut Noise) {
        while !self.marks.is_empty() {
            self.close();
        }
        while let &[_, .., top] = self.above() {
            self.store(noise, top);
        }
        if self.stack.is_empty() {
            self.literal(noise);
        }
    }
}
