//! Bytes: what each does where an item may start, and the items that spell something.

/// A refusal of a message: 01's number and its place, in bytes from the start.
#[derive(Clone, Copy, PartialEq, Eq, Debug)]
pub struct Refusal {
    pub number: u32,
    pub place: usize,
}

/// Refuses with a number at a place.
pub fn refuse<T>(number: u32, place: usize) -> Result<T, Refusal> {
    Err(Refusal { number, place })
}

/// Refuses a message that ends too early: 3, at the slice's length.
pub fn ends<T>(message: &[u8]) -> Result<T, Refusal> {
    refuse(3, message.len())
}

/// What a byte starts, where an item may start.
#[derive(Clone, Copy, PartialEq, Eq, Debug)]
pub enum Class {
    White,
    Integer,
    Atom,
    String,
    Tag,
    Comment,
    Binary,
    Open,
    Close,
    EmptyList,
    Cons,
    Store,
    End,
    Comma,
    Register,
}

/// The class of a byte ("Bytes and items"): whatever no other rule names is a register.
pub fn class(byte: u8) -> Class {
    match byte {
        b' ' | b'\t' | b'\n' | b'\r' => Class::White,
        b'-' | b'0'..=b'9' => Class::Integer,
        b'\'' => Class::Atom,
        b'"' => Class::String,
        b'`' => Class::Tag,
        b'%' => Class::Comment,
        b'~' => Class::Binary,
        b'{' => Class::Open,
        b'}' => Class::Close,
        b'#' => Class::EmptyList,
        b'&' => Class::Cons,
        b'>' => Class::Store,
        b'$' => Class::End,
        b',' => Class::Comma,
        _ => Class::Register,
    }
}

/// Reads the integer whose first byte is at `first`: its value and the offset after its digits.
/// Refuses 3, 4, 5 in this order, so one that runs to the slice's end is 3 even if out of range.
pub fn integer(message: &[u8], first: usize) -> Result<(i64, usize), Refusal> {
    let negative = message.get(first) == Some(&b'-');
    let start = if negative { first + 1 } else { first };
    match message.get(start) {
        None => return ends(message),
        Some(byte) if !byte.is_ascii_digit() => return refuse(4, start),
        Some(_) => {}
    }
    let digits = message[start..]
        .iter()
        .take_while(|byte| byte.is_ascii_digit());
    let after = start + digits.count();
    if after == message.len() {
        return ends(message);
    }
    match decimal(negative, &message[start..after]) {
        Some(value) => Ok((value, after)),
        None => refuse(5, first),
    }
}

/// The value of some digits, or None where it is out of range. A negative one is built downwards,
/// since the range has one more value there.
fn decimal(negative: bool, digits: &[u8]) -> Option<i64> {
    digits.iter().try_fold(0_i64, |value, digit| {
        let digit = i64::from(digit.wrapping_sub(b'0'));
        let shifted = value.checked_mul(10)?;
        if negative {
            shifted.checked_sub(digit)
        } else {
            shifted.checked_add(digit)
        }
    })
}

/// The offset of the mark that closes the atom, string, tag or comment opened by `mark` at `first`.
/// Refuses 4 at a byte that may not follow a backslash, 3 where the slice ends with none met.
pub fn closing(message: &[u8], first: usize, mark: u8) -> Result<usize, Refusal> {
    let mut at = first + 1;
    while let Some(&byte) = message.get(at) {
        if byte == mark {
            return Ok(at);
        }
        if byte == b'\\' {
            at += 1;
            match message.get(at) {
                Some(&next) if next != b'\\' && next != mark => return refuse(4, at),
                _ => {}
            }
        }
        at += 1;
    }
    ends(message)
}

/// Whether some bytes may stand between two marks: each backslash with a backslash or the mark
/// after it, and no other mark ("Plain text": bad escape, unescaped closing mark).
pub fn well_spelled(bytes: &[u8], mark: u8) -> bool {
    let mut bytes = bytes.iter();
    while let Some(&byte) = bytes.next() {
        let good = match byte {
            b'\\' => matches!(bytes.next(), Some(&next) if next == b'\\' || next == mark),
            _ => byte != mark,
        };
        if !good {
            return false;
        }
    }
    true
}

#[cfg(test)]
mod tests {
    use super::*;

    #[test]
    fn registers_are_229() {
        let of = |wanted: Class| (0..=255).filter(|&byte| class(byte) == wanted).count();
        assert_eq!(of(Class::Register), 229);
        assert_eq!(of(Class::White), 4);
        assert_eq!(of(Class::Integer), 11);
        let named = b"-%\"~'`{}#&,$> \t\n\r0123456789";
        assert!(named.iter().all(|&byte| class(byte) != Class::Register));
        assert_eq!(named.len() + 229, 256);
    }

    #[test]
    fn integers() {
        let read = |text: &str| integer(text.as_bytes(), 0).map_err(|no| (no.number, no.place));
        let cases = [
            ("0 ", Ok((0, 1))),
            ("-0 ", Ok((0, 2))),
            ("007a", Ok((7, 3))),
            ("5-3 ", Ok((5, 1))),
            ("9223372036854775807$", Ok((i64::MAX, 19))),
            ("-9223372036854775808$", Ok((i64::MIN, 20))),
            ("-0000000000000000000000001 ", Ok((-1, 26))),
            ("9223372036854775808$", Err((5, 0))),
            ("-9223372036854775809$", Err((5, 0))),
            ("9223372036854775808", Err((3, 19))),
            ("-", Err((3, 1))),
            ("--1 ", Err((4, 1))),
            ("- 1 ", Err((4, 1))),
        ];
        for (text, answer) in cases {
            assert_eq!(read(text), answer, "{text}");
        }
    }

    /// A spelling is good exactly where its mark closes it at its end: all short texts are tried.
    #[test]
    fn spelling_agrees_with_closing() {
        for code in 0..5_usize.pow(6) {
            let text: Vec<u8> = (0..6)
                .map(|n| b"'\\a\"\0"[code / 5_usize.pow(n) % 5])
                .collect();
            for length in 0..=text.len() {
                let inner = &text[..length];
                let closed = [b"'", inner, b"'"].concat();
                let whole = closing(&closed, 0, b'\'') == Ok(length + 1);
                assert_eq!(well_spelled(inner, b'\''), whole, "{closed:?}");
            }
        }
    }
}
