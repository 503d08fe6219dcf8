//! A tree spelled as a message, with other white space, comments, integers, registers and sharing every time.

use super::register;
use super::value::{self, quoted, Value};
use crate::noise::Noise;

/// A message whose term is `value`.
pub fn spell(noise: &mut Noise, value: &Value) -> Vec<u8> {
    let quiet = 1 + noise.below(12);
    let mut spelling = Spelling {
        noise,
        quiet,
        bytes: Vec::new(),
        held: Vec::new(),
    };
    spelling.value(value);
    spelling.gap();
    spelling.bytes.push(b'$');
    spelling.bytes
}

struct Spelling<'a> {
    noise: &'a mut Noise,
    /// How seldom something stands in a message that could be left out.
    quiet: usize,
    bytes: Vec<u8>,
    /// The registers in use and what they hold.
    held: Vec<(u8, Value)>,
}

impl Spelling<'_> {
    fn value(&mut self, value: &Value) {
        self.gap();
        if self.push_held(value) {
            return;
        }
        match value {
            Value::Integer(number) => self.integer(*number),
            Value::Atom(name) => quoted(&mut self.bytes, b'\'', name),
            Value::String(name) => quoted(&mut self.bytes, b'"', name),
            Value::Binary(bytes) => {
                self.value(&Value::Integer(bytes.len() as i64));
                self.gap();
                quoted(&mut self.bytes, b'~', bytes);
            }
            Value::List(items) => self.list(items),
            Value::Tuple(fields) => {
                self.bytes.push(b'{');
                fields.iter().for_each(|field| self.value(field));
                self.gap();
                self.bytes.push(b'}');
            }
            Value::Tag(name, inner) => {
                self.value(inner);
                self.gap();
                quoted(&mut self.bytes, b'`', name);
            }
        }
        self.keep(value);
    }

    /// From the last item to the first, beginning with the longest tail that a register holds, if there is one.
    fn list(&mut self, items: &[Value]) {
        let tail = |at: usize| Value::List(items[at..].to_vec());
        let held = (1..items.len()).find(|&at| self.holder(&tail(at)).is_some());
        let start = match held {
            Some(at) if self.push_held(&tail(at)) => at,
            _ => {
                self.bytes.push(b'#');
                items.len()
            }
        };
        for at in (0..start).rev() {
            self.value(&items[at]);
            self.gap();
            self.bytes.push(b'&');
            if at > 0 {
                self.keep(&tail(at));
            }
        }
    }

    fn holder(&self, value: &Value) -> Option<u8> {
        let found = self.held.iter().find(|(_, held)| held == value);
        found.map(|(name, _)| *name)
    }

    /// Pushes a register that holds the value, mostly, if there is one.
    fn push_held(&mut self, value: &Value) -> bool {
        match self.holder(value) {
            Some(name) if !self.noise.once_in(4) => {
                self.bytes.push(name);
                true
            }
            _ => false,
        }
    }

    /// Sometimes stores the value that was just pushed, and pushes it again.
    fn keep(&mut self, value: &Value) {
        if self.noise.once_in(self.quiet + 1) {
            self.gap();
            let name = self.store(value.clone());
            self.blank();
            self.bytes.push(name);
        }
    }

    fn store(&mut self, value: Value) -> u8 {
        let name = register(self.noise);
        self.held.retain(|(other, _)| *other != name);
        self.held.push((name, value));
        self.bytes.extend([b'>', name]);
        name
    }

    /// The number with a sign where it needs one or is 0, and zeros in front.
    fn integer(&mut self, number: i64) {
        let signed = number < 0 || (number == 0 && self.noise.once_in(2));
        if !signed && self.bytes.last().is_some_and(u8::is_ascii_digit) {
            self.bytes.push(b' ');
        }
        if signed {
            self.bytes.push(b'-');
        }
        if self.noise.once_in(self.quiet) {
            let zeros = self.noise.below(30);
            self.bytes.extend(std::iter::repeat_n(b'0', zeros));
        }
        self.bytes.extend(number.unsigned_abs().to_string().bytes());
    }

    /// White space and comments, or nothing.
    fn blank(&mut self) {
        while self.noise.once_in(self.quiet + 1) {
            if self.noise.once_in(4) {
                let remark = value::name(self.noise, b'%');
                quoted(&mut self.bytes, b'%', &remark);
            } else {
                self.bytes.push(*self.noise.pick(b" \t\n\r"));
            }
        }
    }

    /// What may stand between two items and leaves the stack alone: blanks, and integers stored for later.
    fn gap(&mut self) {
        self.blank();
        while self.noise.once_in(2 * self.quiet + 2) {
            let number = value::integer(self.noise);
            self.integer(number);
            self.blank();
            self.store(Value::Integer(number));
            self.blank();
        }
    }
}
