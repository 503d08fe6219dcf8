//! The same values in the other formats: lists and tuples as arrays, atoms and strings as strings, a tag as an array of its name
//! and the value. Binaries are byte strings, in JSON base64.

use conformance::messages::Value;

/// The nodes that another format has for a value: two for a tag, one for all else.
pub fn nodes_of(value: &Value) -> usize {
    match value {
        Value::List(parts) | Value::Tuple(parts) => 1 + parts.iter().map(nodes_of).sum::<usize>(),
        Value::Tag(_, inner) => 2 + nodes_of(inner),
        _ => 1,
    }
}

/// A format: how each sort of value is put at the end of a message.
trait Format {
    fn integer(message: &mut Vec<u8>, number: i64);
    fn text(message: &mut Vec<u8>, bytes: &[u8]);
    fn binary(message: &mut Vec<u8>, bytes: &[u8]);
    fn array_start(message: &mut Vec<u8>, length: usize);
    fn between(_message: &mut Vec<u8>) {}
    fn array_end(_message: &mut Vec<u8>) {}
}

pub fn json(value: &Value) -> Vec<u8> {
    encoded::<Json>(value)
}

pub fn cbor(value: &Value) -> Vec<u8> {
    encoded::<Cbor>(value)
}

pub fn message_pack(value: &Value) -> Vec<u8> {
    encoded::<MessagePack>(value)
}

fn encoded<F: Format>(value: &Value) -> Vec<u8> {
    let mut message = Vec::new();
    put::<F>(&mut message, value);
    message
}

fn put<F: Format>(message: &mut Vec<u8>, value: &Value) {
    match value {
        Value::Integer(number) => F::integer(message, *number),
        Value::Atom(spelled) | Value::String(spelled) => F::text(message, &unescaped(spelled)),
        Value::Binary(bytes) => F::binary(message, bytes),
        Value::List(parts) | Value::Tuple(parts) => put_array::<F>(message, parts),
        Value::Tag(name, inner) => {
            let name = Value::String(name.clone());
            put_array::<F>(message, &[name, inner.as_ref().clone()]);
        }
    }
}

fn put_array<F: Format>(message: &mut Vec<u8>, parts: &[Value]) {
    F::array_start(message, parts.len());
    for (at, part) in parts.iter().enumerate() {
        if at > 0 {
            F::between(message);
        }
        put::<F>(message, part);
    }
    F::array_end(message);
}

/// The bytes that a spelling stands for: a backslash gives way to what follows it.
fn unescaped(spelled: &[u8]) -> Vec<u8> {
    let mut bytes = Vec::new();
    let mut rest = spelled.iter();
    while let Some(&byte) = rest.next() {
        let meant = if byte == b'\\' { rest.next() } else { None };
        bytes.push(*meant.unwrap_or(&byte));
    }
    bytes
}

struct Json;

impl Format for Json {
    fn integer(message: &mut Vec<u8>, number: i64) {
        message.extend(number.to_string().bytes());
    }

    fn text(message: &mut Vec<u8>, bytes: &[u8]) {
        message.push(b'"');
        for &byte in bytes {
            if matches!(byte, b'"' | b'\\') {
                message.push(b'\\');
            }
            message.push(byte);
        }
        message.push(b'"');
    }

    fn binary(message: &mut Vec<u8>, bytes: &[u8]) {
        Json::text(message, &base64(bytes));
    }

    fn array_start(message: &mut Vec<u8>, _length: usize) {
        message.push(b'[');
    }

    fn between(message: &mut Vec<u8>) {
        message.push(b',');
    }

    fn array_end(message: &mut Vec<u8>) {
        message.push(b']');
    }
}

const BASE64: &[u8; 64] = b"ABCDEFGHIJKLMNOPQRSTUVWXYZabcdefghijklmnopqrstuvwxyz0123456789+/";

fn base64(bytes: &[u8]) -> Vec<u8> {
    let four = |three: &[u8]| {
        let byte = |at: usize| u32::from(three.get(at).copied().unwrap_or(0));
        let bits = byte(0) << 16 | byte(1) << 8 | byte(2);
        let sextet = |at: usize| BASE64[(bits >> (18 - 6 * at)) as usize % 64];
        [0, 1, 2, 3].map(|at| if at > three.len() { b'=' } else { sextet(at) })
    };
    bytes.chunks(3).flat_map(four).collect()
}

struct Cbor;

impl Cbor {
    /// The head of an item of one of the major types, with the shortest argument.
    fn head(message: &mut Vec<u8>, major: u8, argument: u64) {
        let bytes = argument.to_be_bytes();
        let (code, length) = match argument {
            0..24 => return message.push(major << 5 | argument as u8),
            24..0x100 => (24, 1),
            0x100..0x1_0000 => (25, 2),
            0x1_0000..0x1_0000_0000 => (26, 4),
            _ => (27, 8),
        };
        message.push(major << 5 | code);
        message.extend(&bytes[8 - length..]);
    }
}

impl Format for Cbor {
    fn integer(message: &mut Vec<u8>, number: i64) {
        match u64::try_from(number) {
            Ok(number) => Cbor::head(message, 0, number),
            Err(_) => Cbor::head(message, 1, !number as u64),
        }
    }

    fn text(message: &mut Vec<u8>, bytes: &[u8]) {
        Cbor::head(message, 3, bytes.len() as u64);
        message.extend(bytes);
    }

    fn binary(message: &mut Vec<u8>, bytes: &[u8]) {
        Cbor::head(message, 2, bytes.len() as u64);
        message.extend(bytes);
    }

    fn array_start(message: &mut Vec<u8>, length: usize) {
        Cbor::head(message, 4, length as u64);
    }
}

struct MessagePack;

impl MessagePack {
    /// A head whose length stands in 1, 2 or 4 bytes; 0 for the code of a length that the format has no place for.
    fn head(message: &mut Vec<u8>, codes: [u8; 3], length: usize) {
        let bytes = (length as u32).to_be_bytes();
        match length {
            0..0x100 if codes[0] != 0 => message.extend([codes[0], bytes[3]]),
            0..0x1_0000 => message.extend([codes[1], bytes[2], bytes[3]]),
            _ => {
                message.push(codes[2]);
                message.extend(bytes);
            }
        }
    }

    fn natural(message: &mut Vec<u8>, number: u64) {
        let bytes = number.to_be_bytes();
        let (code, length) = match number {
            0..0x80 => return message.push(number as u8),
            0x80..0x100 => (0xCC, 1),
            0x100..0x1_0000 => (0xCD, 2),
            0x1_0000..0x1_0000_0000 => (0xCE, 4),
            _ => (0xCF, 8),
        };
        message.push(code);
        message.extend(&bytes[8 - length..]);
    }

    fn negative(message: &mut Vec<u8>, number: i64) {
        let bytes = number.to_be_bytes();
        let (code, length) = match number {
            -0x20..0 => return message.push(number as u8),
            -0x80..0 => (0xD0, 1),
            -0x8000..0 => (0xD1, 2),
            -0x8000_0000..0 => (0xD2, 4),
            _ => (0xD3, 8),
        };
        message.push(code);
        message.extend(&bytes[8 - length..]);
    }
}

impl Format for MessagePack {
    fn integer(message: &mut Vec<u8>, number: i64) {
        match u64::try_from(number) {
            Ok(number) => MessagePack::natural(message, number),
            Err(_) => MessagePack::negative(message, number),
        }
    }

    fn text(message: &mut Vec<u8>, bytes: &[u8]) {
        match bytes.len() {
            length @ 0..32 => message.push(0xA0 | length as u8),
            length => MessagePack::head(message, [0xD9, 0xDA, 0xDB], length),
        }
        message.extend(bytes);
    }

    fn binary(message: &mut Vec<u8>, bytes: &[u8]) {
        MessagePack::head(message, [0xC4, 0xC5, 0xC6], bytes.len());
        message.extend(bytes);
    }

    fn array_start(message: &mut Vec<u8>, length: usize) {
        match length {
            0..16 => message.push(0x90 | length as u8),
            _ => MessagePack::head(message, [0, 0xDC, 0xDD], length),
        }
    }
}

#[cfg(test)]
mod tests {
    use super::*;

    /// One of everything: `#{1 -2 'a'}&"\"b"&1~c~`t`&`.
    fn everything() -> Value {
        let binary = Value::Binary(b"c".to_vec());
        Value::List(vec![
            Value::Tuple(vec![
                Value::Integer(1),
                Value::Integer(-200),
                Value::Atom(b"a".to_vec()),
            ]),
            Value::String(b"\\\"b".to_vec()),
            Value::Tag(b"t".to_vec(), Box::new(binary)),
        ])
    }

    #[test]
    fn encodings() {
        let value = everything();
        assert_eq!(nodes_of(&value), 9);
        assert_eq!(json(&value), br#"[[1,-200,"a"],"\"b",["t","Yw=="]]"#);
        assert_eq!(
            cbor(&value),
            b"\x83\x83\x01\x38\xC7\x61a\x62\"b\x82\x61t\x41c"
        );
        assert_eq!(
            message_pack(&value),
            b"\x93\x93\x01\xD1\xFF\x38\xA1a\xA2\"b\x92\xA1t\xC4\x01c"
        );
    }

    #[test]
    fn base64_of_each_length() {
        let cases: [(&[u8], &[u8]); 4] = [
            (b"", b""),
            (b"M", b"TQ=="),
            (b"Ma", b"TWE="),
            (b"Man", b"TWFu"),
        ];
        for (bytes, text) in cases {
            assert_eq!(base64(bytes), text);
        }
    }
}
