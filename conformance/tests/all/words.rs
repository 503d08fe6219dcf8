//! Sensor words: 01's figures, the ends of every format, random blocks, and words past the end.

use conformance::check::{shown, Checker, PROGRAM};
use conformance::header::MESSAGE_BYTES;
use conformance::noise::Noise;

/// A message with one block, and the bytes' place in it.
fn block(name: &str, bytes: &[u8]) -> Vec<u8> {
    let count = bytes.len().to_string();
    [count.as_bytes(), b"~", bytes, b"~`", name.as_bytes(), b"`$"].concat()
}

/// The reader's number and value for word k at the root of an accepted message.
fn word(checker: &mut Checker, message: &[u8], k: u64) -> (u32, i64) {
    let decoding = checker.decode(message, PROGRAM).sure(message);
    assert!(decoding.accepted(), "{}", shown(message));
    let word = checker.read_word(decoding.table(message), k).sure(message);
    (word.number, word.value)
}

const BIG: bool = true;
const LITTLE: bool = false;

/// Name, width in bytes, whether signed, byte order.
const FORMATS: [(&str, usize, bool, bool); 10] = [
    ("u8", 1, false, BIG),
    ("i8", 1, true, BIG),
    ("u16be", 2, false, BIG),
    ("u16le", 2, false, LITTLE),
    ("i16be", 2, true, BIG),
    ("i16le", 2, true, LITTLE),
    ("u32be", 4, false, BIG),
    ("u32le", 4, false, LITTLE),
    ("i32be", 4, true, BIG),
    ("i32le", 4, true, LITTLE),
];

/// The word's bytes in the order of the format.
fn spelled(value: i64, width: usize, order: bool) -> Vec<u8> {
    let mut bytes = value.to_le_bytes()[..width].to_vec();
    if order == BIG {
        bytes.reverse();
    }
    bytes
}

#[test]
fn figures_of_01() {
    let cases: [(&str, [u8; 2], i64); 4] = [
        ("u16be", [0x01, 0x02], 258),
        ("u16le", [0x01, 0x02], 513),
        ("i16be", [0xFF, 0xFE], -2),
        ("i16le", [0xFF, 0xFE], -257),
    ];
    let mut checker = Checker::new(1);
    for (name, bytes, value) in cases {
        let message = block(name, &bytes);
        assert_eq!(word(&mut checker, &message, 0), (0, value), "{name}");
    }
}

/// The least and greatest word of a format, those next to them, and every byte set alone.
fn edges(width: usize, signed: bool) -> Vec<i64> {
    let bits = 8 * width as u32;
    let (least, greatest) = match signed {
        true => (-(1 << (bits - 1)), (1 << (bits - 1)) - 1),
        false => (0, (1 << bits) - 1),
    };
    let mut edges = vec![least, least + 1, 0, 1, greatest / 2, greatest - 1, greatest];
    edges.extend((0..width - 1).map(|byte| 0xA5 << (8 * byte)));
    if signed {
        edges.extend([-1, -2]);
    }
    edges
}

#[test]
fn every_format_at_its_ends() {
    let mut checker = Checker::new(2);
    for (name, width, signed, order) in FORMATS {
        let values = edges(width, signed);
        let words = values.iter().map(|&value| spelled(value, width, order));
        let message = block(name, &words.collect::<Vec<_>>().concat());
        for (k, &value) in values.iter().enumerate() {
            let found = word(&mut checker, &message, k as u64);
            assert_eq!(found, (0, value), "{name}, word {k}");
        }
        let count = values.len() as u64;
        for k in [
            count,
            count + 1,
            1 << 32,
            1 << 61,
            1 << 62,
            1 << 63,
            u64::MAX,
        ] {
            assert_eq!(word(&mut checker, &message, k), (20, 0), "{name}, word {k}");
        }
    }
}

#[test]
fn random_blocks() {
    let mut checker = Checker::new(3);
    let mut noise = Noise::new(4);
    for _ in 0..2_000 {
        let &(name, width, signed, order) = noise.pick(&FORMATS);
        let count = noise.below(9);
        let drawn = |noise: &mut Noise| {
            let value = noise.draw() as i64 >> (64 - 8 * width);
            if signed {
                value
            } else {
                value & ((1 << (8 * width)) - 1)
            }
        };
        let values: Vec<i64> = (0..count).map(|_| drawn(&mut noise)).collect();
        let words = values.iter().map(|&value| spelled(value, width, order));
        let message = block(name, &words.collect::<Vec<_>>().concat());
        for (k, &value) in values.iter().enumerate() {
            let found = word(&mut checker, &message, k as u64);
            assert_eq!(found, (0, value), "{name}, word {k} of {}", shown(&message));
        }
        assert_eq!(
            word(&mut checker, &message, count as u64),
            (20, 0),
            "{name}"
        );
    }
}

#[test]
fn lengths_that_are_no_multiple() {
    let mut checker = Checker::new(5);
    for (name, width, _, _) in FORMATS {
        for length in 0..13 {
            let message = block(name, &vec![7; length]);
            let number = match length % width {
                0 if length == 0 => 20,
                0 => 0,
                _ => 19,
            };
            assert_eq!(
                word(&mut checker, &message, 0).0,
                number,
                "{name}, {length} bytes"
            );
        }
    }
}

#[test]
fn what_is_no_block() {
    let messages: [&[u8]; 18] = [
        b"2~ab~$",
        b"2~ab~`u24be`$",
        b"2~ab~`u16`$",
        b"2~ab~`U8`$",
        b"2~ab~`u8 `$",
        b"2~ab~` u8`$",
        b"2~ab~`\x00u8`$",
        b"2~ab~`u`$",
        b"2~ab~``$",
        b"2~ab~`u16bee`$",
        b"2~ab~`u16b\\\\`$",
        b"2~ab~`u8``u8`$",
        b"1`u8`$",
        b"'ab'`u8`$",
        b"\"ab\"`u8`$",
        b"#2~ab~&`u8`$",
        b"{2~ab~}`u8`$",
        b"{2~ab~`u8`}$",
    ];
    let mut checker = Checker::new(6);
    for message in messages {
        for k in [0, u64::MAX] {
            assert_eq!(
                word(&mut checker, message, k),
                (18, 0),
                "{}",
                shown(message)
            );
        }
    }
}

/// As many words as a message can hold; their count has seven digits, that of an empty block one.
#[test]
fn the_longest_block() {
    let words = (MESSAGE_BYTES - block("u32le", b"").len() - 6) / 4;
    let bytes: Vec<u8> = (0..words).flat_map(|at| [at as u8; 4]).collect();
    let message = block("u32le", &bytes);
    assert!(message.len() <= MESSAGE_BYTES && message.len() + 4 > MESSAGE_BYTES);
    let mut checker = Checker::new(8);
    let last = words as u64 - 1;
    let value = i64::from(u32::from_le_bytes([last as u8; 4]));
    assert_eq!(word(&mut checker, &message, last), (0, value));
    assert_eq!(word(&mut checker, &message, last + 1), (20, 0));
}

/// Any row of a table may be asked: a block inside a tuple, and every row that is none.
#[test]
fn blocks_inside_a_message() {
    let message = b"{'temp'4~\x00\x01\x80\x00~`i16be`\"mV\"4~\x01\x00\x00\x80~`u32le`#}$";
    let mut checker = Checker::new(7);
    let decoding = checker.decode(message, PROGRAM).sure(message);
    let mut table = decoding.table(message);
    let mut found = Vec::new();
    for row in 0..=table.used {
        table.root = row;
        let word = checker.read_word(table, 1).sure(message);
        found.push((word.number, word.value));
    }
    let due = [
        18, 18, 18, 0, 18, 18, 18, 20, 18, 18, 18, 18, 18, 18, 18, 16,
    ];
    let numbers: Vec<u32> = found.iter().map(|&(number, _)| number).collect();
    assert_eq!(numbers, due);
    assert_eq!(found[3].1, -32768);
}
