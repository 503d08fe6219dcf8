//! Terms: the plain trees that messages stand for ("The machine"), each kept once, however often it
//! is used.

use std::collections::{BTreeSet, HashMap};
use std::sync::Arc;

/// A term of one forest: two terms are the same tree exactly where they are the same node.
#[derive(Clone, Copy, PartialEq, Eq, PartialOrd, Ord, Hash, Debug)]
pub struct Term(usize);

/// One node. Bytes are as spelled. A list is a cell or the empty list. A tuple is a field or the
/// end: its first field's node, whose rest is the tuple of the fields from there on.
#[derive(Clone, PartialEq, Eq, Hash, Debug)]
pub enum Node {
    Integer(i64),
    Atom(Arc<[u8]>),
    String(Arc<[u8]>),
    Binary(Arc<[u8]>),
    Nil,
    Cell { item: Term, rest: Term },
    End,
    Field { field: Term, rest: Term },
    Tag { name: Arc<[u8]>, inner: Term },
}

/// All nodes, in the order they were made: the parts of a node come before it.
#[derive(Default)]
pub struct Forest {
    nodes: Vec<Node>,
    known: HashMap<Node, Term>,
}

impl Forest {
    pub fn new() -> Forest {
        Forest::default()
    }

    pub fn integer(&mut self, value: i64) -> Term {
        self.keep(Node::Integer(value))
    }

    pub fn atom(&mut self, bytes: &[u8]) -> Term {
        self.keep(Node::Atom(bytes.into()))
    }

    pub fn string(&mut self, bytes: &[u8]) -> Term {
        self.keep(Node::String(bytes.into()))
    }

    pub fn binary(&mut self, bytes: &[u8]) -> Term {
        self.keep(Node::Binary(bytes.into()))
    }

    /// The empty list.
    pub fn nil(&mut self) -> Term {
        self.keep(Node::Nil)
    }

    /// The list of an item before the items of another list.
    pub fn cons(&mut self, item: Term, rest: Term) -> Term {
        self.keep(Node::Cell { item, rest })
    }

    /// The empty tuple.
    pub fn end(&mut self) -> Term {
        self.keep(Node::End)
    }

    /// The tuple of a field before the fields of another tuple.
    pub fn field(&mut self, field: Term, rest: Term) -> Term {
        self.keep(Node::Field { field, rest })
    }

    /// The tuple of some fields, in their order.
    pub fn tuple(&mut self, fields: &[Term]) -> Term {
        let end = self.end();
        let fields = fields.iter().rev();
        fields.fold(end, |rest, &field| self.field(field, rest))
    }

    pub fn tag(&mut self, name: &[u8], inner: Term) -> Term {
        let name = name.into();
        self.keep(Node::Tag { name, inner })
    }

    /// The node of a term of this forest.
    pub fn node(&self, term: Term) -> &Node {
        &self.nodes[term.0]
    }

    /// All nodes of a term, itself included, each once, parts before wholes.
    pub fn parts(&self, term: Term) -> BTreeSet<Term> {
        let mut parts = BTreeSet::new();
        let mut pending = vec![term];
        while let Some(part) = pending.pop() {
            if parts.insert(part) {
                match *self.node(part) {
                    Node::Cell { item: one, rest } | Node::Field { field: one, rest } => {
                        pending.extend([one, rest]);
                    }
                    Node::Tag { inner, .. } => pending.push(inner),
                    _ => {}
                }
            }
        }
        parts
    }

    /// The term of a node: the one that is there already, or a new one.
    fn keep(&mut self, node: Node) -> Term {
        if let Some(&term) = self.known.get(&node) {
            return term;
        }
        let term = Term(self.nodes.len());
        self.nodes.push(node.clone());
        self.known.insert(node, term);
        term
    }
}

#[cfg(test)]
mod tests {
    use super::*;

    #[test]
    fn same_term_same_node() {
        let mut forest = Forest::new();
        let one = forest.integer(1);
        let list = forest.nil();
        let list = forest.cons(one, list);
        let tuple = forest.tuple(&[one]);
        let others = [
            forest.atom(b"a"),
            forest.string(b"a"),
            forest.binary(b"a"),
            forest.tag(b"a", one),
            forest.nil(),
            forest.end(),
            list,
            tuple,
            one,
        ];
        let different: BTreeSet<Term> = others.into_iter().collect();
        assert_eq!(different.len(), others.len());
        assert_eq!(forest.tuple(&[]), forest.end());
        assert_eq!(forest.tuple(&[one]), tuple);
        assert_ne!(forest.tuple(&[tuple]), tuple);
        assert_eq!(forest.atom(b"a"), others[0]);
    }

    #[test]
    fn long_tuple() {
        let mut forest = Forest::new();
        let fields: Vec<Term> = (0..60_000).map(|n| forest.integer(n % 7)).collect();
        let tuple = forest.tuple(&fields);
        assert_eq!(forest.tuple(&fields), tuple);
        assert_eq!(forest.parts(tuple).len(), 60_000 + 7 + 1);
    }
}
