//! Sensor words: the ten formats and the joining of a word's bytes ("Sensor words").

/// How the words of a block are joined.
#[derive(Clone, Copy, PartialEq, Eq, Debug)]
pub struct Format {
    name: &'static str,
    /// Bytes of a word.
    pub width: usize,
    signed: bool,
    /// Whether the most significant byte comes first.
    big: bool,
}

const fn format(name: &'static str, width: usize, signed: bool, big: bool) -> Format {
    Format {
        name,
        width,
        signed,
        big,
    }
}

/// The ten known tag names.
const FORMATS: [Format; 10] = [
    format("u8", 1, false, true),
    format("i8", 1, true, true),
    format("u16be", 2, false, true),
    format("u16le", 2, false, false),
    format("i16be", 2, true, true),
    format("i16le", 2, true, false),
    format("u32be", 4, false, true),
    format("u32le", 4, false, false),
    format("i32be", 4, true, true),
    format("i32le", 4, true, false),
];

/// The format that a tag names, as spelled.
pub fn known(name: &[u8]) -> Option<Format> {
    FORMATS
        .into_iter()
        .find(|format| format.name.as_bytes() == name)
}

/// The number that a word's bytes stand for. At most four bytes, so it is far within range.
pub fn join(format: Format, bytes: &[u8]) -> i64 {
    let add = |value: i64, &byte: &u8| value * 256 + i64::from(byte);
    let value = if format.big {
        bytes.iter().fold(0, add)
    } else {
        bytes.iter().rev().fold(0, add)
    };
    let modulus = 1_i64 << (8 * format.width);
    if format.signed && value >= modulus / 2 {
        value - modulus
    } else {
        value
    }
}

#[cfg(test)]
mod tests {
    use super::*;

    #[test]
    fn figures() {
        let cases: [(&str, &[u8], i64); 23] = [
            ("u16be", &[1, 2], 258),
            ("u16le", &[1, 2], 513),
            ("i16be", &[0xff, 0xfe], -2),
            ("i16le", &[0xff, 0xfe], -257),
            ("u16be", &[0xff, 0xfe], 65_534),
            ("u16le", &[0xff, 0xfe], 65_279),
            ("i16be", &[1, 2], 258),
            ("i16le", &[1, 2], 513),
            ("i16be", &[0x80, 0], -32_768),
            ("i16le", &[0, 0x80], -32_768),
            ("i16be", &[0x7f, 0xff], 32_767),
            ("u8", &[0x7f], 127),
            ("u8", &[0x80], 128),
            ("u8", &[0xff], 255),
            ("i8", &[0x7f], 127),
            ("i8", &[0x80], -128),
            ("i8", &[0xff], -1),
            ("u32be", &[0xff, 0, 0, 1], 4_278_190_081),
            ("u32le", &[0xff, 0, 0, 1], 16_777_471),
            ("i32be", &[0xff, 0, 0, 1], -16_777_215),
            ("i32le", &[0xff, 0, 0, 1], 16_777_471),
            ("i32le", &[0, 0, 0, 0x80], -2_147_483_648),
            ("u32be", &[0xff, 0xff, 0xff, 0xff], 4_294_967_295),
        ];
        for (name, bytes, value) in cases {
            let format = known(name.as_bytes()).unwrap();
            assert_eq!(format.width, bytes.len());
            assert_eq!(join(format, bytes), value, "{name} {bytes:?}");
        }
        for name in ["", "u", "U8", "u8 ", "u16", "u8be", "i64be", "u16beu"] {
            assert_eq!(known(name.as_bytes()), None);
        }
    }
}
