//! Terms as trees, and their plain text by 01's rules.

use crate::noise::Noise;

#[derive(Clone, Debug, PartialEq, Eq)]
pub enum Value {
    Integer(i64),
    Atom(Vec<u8>),
    String(Vec<u8>),
    Binary(Vec<u8>),
    List(Vec<Value>),
    Tuple(Vec<Value>),
    Tag(Vec<u8>, Box<Value>),
}

/// Integers near the ends of the ranges where a decoder could go wrong.
const EDGES: [i64; 12] = [
    0,
    1,
    -1,
    9,
    10,
    -10,
    u32::MAX as i64,
    1 << 32,
    -(1 << 32),
    i64::MAX,
    i64::MIN,
    i64::MIN + 1,
];

/// The ten names of sensor words.
pub const WORD_NAMES: [&[u8]; 10] = [
    b"u8", b"i8", b"u16be", b"u16le", b"i16be", b"i16le", b"u32be", b"u32le", b"i32be", b"i32le",
];

impl Value {
    /// A tree of about `size` nodes, some of them equal.
    pub fn random(noise: &mut Noise, size: usize) -> Value {
        let mut room = size;
        grown(noise, &mut room, &mut Vec::new())
    }

    /// The plain text with the closing `$`.
    pub fn plain(&self) -> Vec<u8> {
        let mut text = Vec::new();
        self.append(&mut text);
        text.push(b'$');
        text
    }

    fn append(&self, text: &mut Vec<u8>) {
        match self {
            Value::Integer(number) => text.extend(format!("{number} ").bytes()),
            Value::Atom(name) => quoted(text, b'\'', name),
            Value::String(name) => quoted(text, b'"', name),
            Value::Binary(bytes) => {
                text.extend(format!("{}~", bytes.len()).bytes());
                text.extend(bytes);
                text.push(b'~');
            }
            Value::List(items) => {
                text.push(b'#');
                for item in items.iter().rev() {
                    item.append(text);
                    text.push(b'&');
                }
            }
            Value::Tuple(fields) => {
                text.push(b'{');
                fields.iter().for_each(|field| field.append(text));
                text.push(b'}');
            }
            Value::Tag(name, inner) => {
                inner.append(text);
                quoted(text, b'`', name);
            }
        }
    }

    /// Changes one leaf, or an end of an empty list or tuple, so that the plain text is another.
    pub fn change_leaf(&mut self, noise: &mut Noise) {
        match self {
            Value::Integer(number) => *number ^= 1 << noise.below(64),
            Value::Atom(name) | Value::String(name) | Value::Binary(name) => name.push(b'x'),
            Value::List(parts) | Value::Tuple(parts) if parts.is_empty() => {
                parts.push(Value::Integer(0));
            }
            Value::List(parts) | Value::Tuple(parts) => {
                let at = noise.below(parts.len());
                parts[at].change_leaf(noise);
            }
            Value::Tag(name, _) if noise.once_in(3) => name.push(b'x'),
            Value::Tag(_, inner) => inner.change_leaf(noise),
        }
    }

    /// Makes one leaf or inner node another kind with the same contents: an atom a string, a list a tuple, and so on.
    pub fn change_kind(&mut self, noise: &mut Noise) {
        *self = match std::mem::replace(self, Value::Integer(0)) {
            Value::Integer(number) => Value::Atom(number.to_string().into_bytes()),
            Value::Atom(name) if name.iter().any(|byte| b"\"\\".contains(byte)) => {
                Value::Binary(name)
            }
            Value::Atom(name) => Value::String(name),
            Value::String(name) | Value::Binary(name) => {
                Value::Tag(b"kind".to_vec(), Box::new(Value::Binary(name)))
            }
            Value::List(items) => Value::Tuple(items),
            Value::Tuple(mut fields) if !fields.is_empty() && noise.once_in(2) => {
                let at = noise.below(fields.len());
                fields[at].change_kind(noise);
                Value::Tuple(fields)
            }
            Value::Tuple(fields) => Value::List(fields),
            Value::Tag(_, inner) => *inner,
        };
    }
}

/// The bytes between two marks.
pub fn quoted(text: &mut Vec<u8>, mark: u8, name: &[u8]) {
    text.push(mark);
    text.extend(name);
    text.push(mark);
}

fn grown(noise: &mut Noise, room: &mut usize, made: &mut Vec<(usize, Value)>) -> Value {
    if !made.is_empty() && noise.once_in(4) {
        let (size, value) = noise.pick(made).clone();
        if size <= *room {
            *room -= size;
            return value;
        }
    }
    let before = *room;
    *room = room.saturating_sub(1);
    let value = match noise.below(8) {
        0 | 1 if *room > 0 => Value::List(several(noise, room, made)),
        2 | 3 if *room > 0 => Value::Tuple(several(noise, room, made)),
        4 if noise.once_in(2) => block(noise),
        4 if *room > 0 => {
            let inner = grown(noise, room, made);
            Value::Tag(tag_name(noise), Box::new(inner))
        }
        _ => leaf(noise),
    };
    made.push((before - *room, value.clone()));
    value
}

fn several(noise: &mut Noise, room: &mut usize, made: &mut Vec<(usize, Value)>) -> Vec<Value> {
    let count = noise.below(6);
    (0..count)
        .map_while(|_| (*room > 0).then(|| grown(noise, room, made)))
        .collect()
}

/// A sensor block, mostly of a length that suits its name.
fn block(noise: &mut Noise) -> Value {
    let length = match noise.below(4) {
        0 => noise.below(13),
        _ => 4 * noise.below(4),
    };
    let bytes = (0..length).map(|_| noise.byte()).collect();
    let name = noise.pick(&WORD_NAMES).to_vec();
    Value::Tag(name, Box::new(Value::Binary(bytes)))
}

fn leaf(noise: &mut Noise) -> Value {
    match noise.below(5) {
        0 | 1 => Value::Integer(integer(noise)),
        2 => Value::Atom(name(noise, b'\'')),
        3 => Value::String(name(noise, b'"')),
        _ => Value::Binary(bytes(noise)),
    }
}

pub fn integer(noise: &mut Noise) -> i64 {
    match noise.below(4) {
        0 => *noise.pick(&EDGES),
        1 => noise.draw() as i64,
        _ => noise.below(10) as i64,
    }
}

/// Bytes as they are spelled between two of this mark, escapes kept.
pub fn name(noise: &mut Noise, mark: u8) -> Vec<u8> {
    let mut name = Vec::new();
    for byte in bytes(noise) {
        if byte == mark || byte == b'\\' {
            name.push(b'\\');
        }
        name.push(byte);
    }
    name
}

pub fn tag_name(noise: &mut Noise) -> Vec<u8> {
    match noise.below(2) {
        0 => noise.pick(&WORD_NAMES).to_vec(),
        _ => name(noise, b'`'),
    }
}

/// A few bytes, those with a meaning often among them.
pub fn bytes(noise: &mut Noise) -> Vec<u8> {
    let count = match noise.below(12) {
        0 => noise.below(40),
        _ => noise.below(5),
    };
    let one = |noise: &mut Noise| match noise.below(3) {
        0 => *noise.pick(b"~`'\"\\%{}#&$>-, \n\x00\xff"),
        1 => noise.byte(),
        _ => *noise.pick(b"abc019"),
    };
    (0..count).map(|_| one(noise)).collect()
}
