//! The full plain text of a term, written from its tree ("Plain text").

use super::forest::{Forest, Node, Term};
use std::collections::HashMap;

/// What is still to be written.
enum Piece<'a> {
    /// A whole term.
    Term(Term),
    /// The fields of a tuple from here on, and its closing brace.
    Fields(Term),
    /// Bytes between two marks, and the marks.
    Spelled(u8, &'a [u8]),
    Byte(u8),
}

/// Text up to a limit.
struct Text {
    bytes: Vec<u8>,
    limit: usize,
}

impl Text {
    /// Adds some bytes, or gives None where they do not fit.
    fn put(&mut self, bytes: &[u8]) -> Option<()> {
        let room = self.limit.checked_sub(self.bytes.len())?;
        if bytes.len() > room {
            return None;
        }
        self.bytes.extend_from_slice(bytes);
        Some(())
    }

    fn spelled(&mut self, mark: u8, bytes: &[u8]) -> Option<()> {
        self.put(&[mark])?;
        self.put(bytes)?;
        self.put(&[mark])
    }
}

/// The full plain text of a term with the closing `$`, or None where it is longer than `limit`.
/// Pending pieces stand on a stack of their own, so depth costs no machine stack; each step adds a
/// byte or goes one node down, so the end comes soon after the limit.
pub fn plain(forest: &Forest, term: Term, limit: usize) -> Option<Vec<u8>> {
    let bytes = Vec::new();
    let mut text = Text { bytes, limit };
    let mut pending = vec![Piece::Byte(b'$'), Piece::Term(term)];
    while let Some(piece) = pending.pop() {
        match piece {
            Piece::Term(term) => write_term(forest, term, &mut text, &mut pending)?,
            Piece::Fields(tuple) => match *forest.node(tuple) {
                Node::Field { field, rest } => {
                    pending.extend([Piece::Fields(rest), Piece::Term(field)]);
                }
                _ => text.put(b"}")?,
            },
            Piece::Spelled(mark, bytes) => text.spelled(mark, bytes)?,
            Piece::Byte(byte) => text.put(&[byte])?,
        }
    }
    Some(text.bytes)
}

/// Writes what comes first in a term's text and leaves the rest pending, its last piece undermost.
fn write_term<'a>(
    forest: &'a Forest,
    term: Term,
    text: &mut Text,
    pending: &mut Vec<Piece<'a>>,
) -> Option<()> {
    match forest.node(term) {
        Node::Integer(value) => text.put(format!("{value} ").as_bytes()),
        Node::Atom(bytes) => text.spelled(b'\'', bytes),
        Node::String(bytes) => text.spelled(b'"', bytes),
        Node::Binary(bytes) => {
            text.put(bytes.len().to_string().as_bytes())?;
            text.spelled(b'~', bytes)
        }
        Node::Nil => text.put(b"#"),
        Node::Cell { item, rest } => {
            // The items go from last to first: those of the rest before this one.
            pending.extend([Piece::Byte(b'&'), Piece::Term(*item), Piece::Term(*rest)]);
            Some(())
        }
        Node::End | Node::Field { .. } => {
            pending.push(Piece::Fields(term));
            text.put(b"{")
        }
        Node::Tag { name, inner } => {
            pending.extend([Piece::Spelled(b'`', name), Piece::Term(*inner)]);
            Some(())
        }
    }
}

/// The length of the full plain text, with the closing `$`, each shared node measured once.
/// Saturates.
pub fn length(forest: &Forest, term: Term) -> u128 {
    let mut lengths: HashMap<Term, u128> = HashMap::new();
    let mut whole = 0;
    for part in forest.parts(term) {
        let of = |inner: &Term| lengths.get(inner).copied().unwrap_or(0);
        whole = match forest.node(part) {
            Node::Integer(value) => wide(value.to_string().len()) + 1,
            Node::Atom(bytes) | Node::String(bytes) => wide(bytes.len()) + 2,
            Node::Binary(bytes) => wide(bytes.len().to_string().len()) + wide(bytes.len()) + 2,
            Node::Nil => 1,
            Node::Cell { item, rest } => of(item).saturating_add(of(rest)).saturating_add(1),
            Node::End => 2,
            Node::Field { field, rest } => of(field).saturating_add(of(rest)),
            Node::Tag { name, inner } => of(inner).saturating_add(wide(name.len()) + 2),
        };
        lengths.insert(part, whole);
    }
    whole.saturating_add(1)
}

/// A length as a wide number.
fn wide(length: usize) -> u128 {
    length as u128
}

#[cfg(test)]
mod tests {
    use super::*;

    /// The text of a term at its own length, after a look at the limits around it.
    fn exact(forest: &Forest, term: Term) -> Vec<u8> {
        let length = usize::try_from(length(forest, term)).unwrap();
        assert_eq!(plain(forest, term, length - 1), None);
        assert_eq!(plain(forest, term, 0), None);
        let text = plain(forest, term, length).unwrap();
        assert_eq!(text.len(), length);
        assert_eq!(plain(forest, term, usize::MAX).unwrap(), text);
        text
    }

    #[test]
    fn texts() {
        let forest = &mut Forest::new();
        let (one, two) = (forest.integer(1), forest.integer(-2));
        let nil = forest.nil();
        let rest = forest.cons(two, nil);
        let list = forest.cons(one, rest);
        let tuple = forest.tuple(&[one, two, list]);
        let cases: [(Term, &[u8]); 11] = [
            (one, b"1 $"),
            (forest.integer(i64::MIN), b"-9223372036854775808 $"),
            (forest.atom(b"a\\'b"), b"'a\\'b'$"),
            (forest.string(b"\n\0"), b"\"\n\0\"$"),
            (forest.binary(b"a~b"), b"3~a~b~$"),
            (forest.binary(b""), b"0~~$"),
            (nil, b"#$"),
            (list, b"#-2 &1 &$"),
            (forest.end(), b"{}$"),
            (tuple, b"{1 -2 #-2 &1 &}$"),
            (forest.tag(b"t", tuple), b"{1 -2 #-2 &1 &}`t`$"),
        ];
        for (term, text) in cases {
            assert_eq!(exact(forest, term), text);
        }
    }

    /// Depth of every sort: no recursion over it.
    #[test]
    fn deep() {
        let forest = &mut Forest::new();
        let nil = forest.nil();
        let (mut items, mut rests, mut fields, mut tags) = (nil, nil, nil, nil);
        for _ in 0..65_000 {
            items = forest.cons(items, nil);
            rests = forest.cons(nil, rests);
            fields = forest.tuple(&[fields]);
            tags = forest.tag(b"t", tags);
        }
        for (term, bytes) in [(items, 2), (rests, 2), (fields, 2), (tags, 3)] {
            assert_eq!(exact(forest, term).len(), 65_000 * bytes + 2);
        }
    }

    /// Shared terms whose text no memory holds.
    #[test]
    fn huge() {
        let forest = &mut Forest::new();
        let mut term = forest.integer(1);
        for round in 1..=300_u32 {
            term = forest.tuple(&[term, term]);
            let full = 1_u128.checked_shl(round + 2).filter(|_| round < 126);
            let full = full.map_or(u128::MAX, |power| power - 1);
            assert_eq!(length(forest, term), full);
        }
        assert_eq!(plain(forest, term, 1 << 20), None);
    }
}
