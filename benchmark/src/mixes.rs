//! The messages that are timed: each mix at any size, the same bytes every time.

use conformance::check::LARGEST;
use conformance::header::ROWS;
use conformance::messages::{Value, WORD_NAMES};
use conformance::model::decode::decode;
use conformance::model::forest::Forest;
use conformance::noise::Noise;

/// A kind of message: its name, one item of its list, and the spelling of the whole.
pub struct Mix {
    pub name: &'static str,
    item: fn(&mut Noise) -> Value,
    spell: fn(&Value) -> Vec<u8>,
}

/// About the bytes of a message, as far as the rows allow; the middle one is what figures are given for.
pub const SIZES: [usize; 3] = [4 << 10, 32 << 10, 256 << 10];

pub const MIXES: [Mix; 7] = [
    plain("short integers", short_integer),
    plain("nine-digit integers", long_integer),
    plain("mixed tuples", reading),
    plain("sensor blocks", block),
    plain("deep nesting", nested),
    Mix {
        name: "registers",
        item: record,
        spell: spell_records,
    },
    plain("long text", long_text),
];

/// A mix for the writer alone: a decoder steps over a binary.
pub const BINARIES: Mix = plain("long binaries", binary);

const fn plain(name: &'static str, item: fn(&mut Noise) -> Value) -> Mix {
    Mix {
        name,
        item,
        spell: Value::plain,
    }
}

/// A message, and the value that it stands for.
pub struct Message {
    pub bytes: Vec<u8>,
    pub value: Value,
}

impl Mix {
    /// A message of about `size` bytes, or of as many as the rows allow.
    pub fn message(&self, size: usize) -> Message {
        let mut noise = Noise::new(0x5EED);
        let (head_bytes, head_rows) = self.cost(Vec::new());
        let (mut bytes, mut rows) = (head_bytes, head_rows);
        let mut items = Vec::new();
        while bytes < size {
            let item = (self.item)(&mut noise);
            let (item_bytes, item_rows) = self.cost(vec![item.clone()]);
            bytes += item_bytes - head_bytes;
            rows += item_rows - head_rows;
            if rows > ROWS {
                break;
            }
            items.push(item);
        }
        let value = Value::List(items);
        Message {
            bytes: (self.spell)(&value),
            value,
        }
    }

    /// Bytes and rows of the message of a list with these items.
    fn cost(&self, items: Vec<Value>) -> (usize, usize) {
        let message = (self.spell)(&Value::List(items));
        let decoded = decode(&mut Forest::new(), &message, LARGEST);
        (message.len(), decoded.used as usize)
    }
}

/// The values that a tree is made of, itself included: what every format has to tell.
pub fn values_of(value: &Value) -> usize {
    match value {
        Value::List(parts) | Value::Tuple(parts) => 1 + parts.iter().map(values_of).sum::<usize>(),
        Value::Tag(_, inner) => 1 + values_of(inner),
        _ => 1,
    }
}

/// An integer of exactly so many digits.
fn digits(noise: &mut Noise, count: u32) -> Value {
    let least = 10_usize.pow(count - 1);
    Value::Integer((least + noise.below(9 * least)) as i64)
}

/// One to four digits, each length as often.
fn short_integer(noise: &mut Noise) -> Value {
    let count = 1 + noise.below(4) as u32;
    digits(noise, count)
}

fn long_integer(noise: &mut Noise) -> Value {
    digits(noise, 9)
}

fn atom(name: &str) -> Value {
    Value::Atom(name.into())
}

fn one_atom(noise: &mut Noise, names: &[&str]) -> Value {
    let name: &&str = noise.pick(names);
    atom(name)
}

fn text(words: &str) -> Value {
    Value::String(words.into())
}

fn integer_below(noise: &mut Noise, bound: usize) -> Value {
    Value::Integer(noise.below(bound) as i64)
}

const WORDS: [&str; 12] = [
    "bus", "current", "of", "the", "second", "panel", "above", "limit", "in", "sunlight", "heater",
    "switched",
];

/// Words with a blank between two.
fn words(noise: &mut Noise, count: usize) -> String {
    let words: Vec<&str> = (0..count).map(|_| *noise.pick(&WORDS)).collect();
    words.join(" ")
}

/// A line of telemetry: `{'reading' 12345 "text of some length" 'ok' -17 'amp'}`.
fn reading(noise: &mut Noise) -> Value {
    let count = 1 + noise.below(8);
    Value::Tuple(vec![
        one_atom(noise, &["reading", "status", "event"]),
        integer_below(noise, 100_000),
        text(&words(noise, count)),
        one_atom(noise, &["ok", "low", "high", "fault"]),
        Value::Integer(noise.below(2_000) as i64 - 1_000),
        one_atom(noise, &["amp", "volt", "kelvin"]),
    ])
}

/// 64 bytes under one of the names of sensor words.
fn block(noise: &mut Noise) -> Value {
    let bytes = (0..64).map(|_| noise.byte()).collect();
    let name = noise.pick(&WORD_NAMES).to_vec();
    Value::Tag(name, Box::new(Value::Binary(bytes)))
}

fn binary(noise: &mut Noise) -> Value {
    Value::Binary((0..64 << 10).map(|_| noise.byte()).collect())
}

/// An integer in 30 tuples.
fn nested(noise: &mut Noise) -> Value {
    let inmost = integer_below(noise, 100);
    (0..30).fold(inmost, |inner, _| Value::Tuple(vec![inner]))
}

/// Some kilobytes, with an escaped quotation mark now and then.
fn long_text(noise: &mut Noise) -> Value {
    let mut bytes = Vec::new();
    let length = 2_000 + noise.below(4_000);
    while bytes.len() < length {
        let count = 20 + noise.below(100);
        bytes.extend(words(noise, count).bytes());
        bytes.extend(b" \\\"");
    }
    Value::String(bytes)
}

/// What the records have in common, by register.
fn common() -> [(u8, Value); 6] {
    let place = Value::Tuple(vec![atom("panel"), Value::Integer(2), atom("sunside")]);
    let unit = Value::Tuple(vec![atom("ampere"), Value::Integer(1_000)]);
    [
        (b'r', atom("reading")),
        (b'o', atom("ok")),
        (b'f', atom("over the limit")),
        (b'p', place),
        (b'u', unit),
        (b'n', text("bus current of the second panel")),
    ]
}

/// A record most of which is the same every time.
fn record(noise: &mut Noise) -> Value {
    let [reading, ok, fault, place, unit, name] = common().map(|(_, value)| value);
    let state = if noise.once_in(3) { fault } else { ok };
    let number = integer_below(noise, 10_000);
    Value::Tuple(vec![reading, place, name, number, unit, state])
}

/// Stores what the records have in common, then builds the list with it.
fn spell_records(list: &Value) -> Vec<u8> {
    let mut message = Vec::new();
    for (register, value) in common() {
        spell_part(&mut message, &value, &[]);
        message.extend([b'>', register]);
    }
    spell_part(&mut message, list, &common());
    message.push(b'$');
    message
}

/// The value's plain text, with registers pushed for the values that they hold.
fn spell_part(message: &mut Vec<u8>, value: &Value, held: &[(u8, Value)]) {
    if let Some((register, _)) = held.iter().find(|(_, known)| known == value) {
        return message.push(*register);
    }
    match value {
        Value::List(items) => {
            message.push(b'#');
            for item in items.iter().rev() {
                spell_part(message, item, held);
                message.push(b'&');
            }
        }
        Value::Tuple(fields) => {
            message.push(b'{');
            fields
                .iter()
                .for_each(|field| spell_part(message, field, held));
            message.push(b'}');
        }
        leaf => {
            let text = leaf.plain();
            message.extend(&text[..text.len() - 1]);
        }
    }
}
