//! Terms spelled as two messages: equal where the term is the same, different where one leaf, kind or item is another.

use conformance::check::{shown, Checker, PROGRAM};
use conformance::library;
use conformance::messages::{spell, Value};
use conformance::noise::Noise;

const PAIRS: u64 = 6_000;

/// Both messages, decoded and compared; whether they are equal, from the library, the model and the texts.
fn equal(seed: u64, a: &[u8], b: &[u8]) -> bool {
    let mut checker = Checker::new(seed);
    let left = checker.decode(a, PROGRAM).sure(a);
    let right = checker.decode(b, PROGRAM).sure(b);
    let what = format!("seed {seed}: {} and {}", shown(a), shown(b));
    assert!(left.accepted() && right.accepted(), "{what}");
    let (side_a, side_b) = (left.table(a), right.table(b));
    let spare = checker.noise.below(3);
    let scratch = (side_a.used + side_b.used) as usize + spare;
    let compared = checker
        .compare(side_a, side_b, scratch)
        .sure(what.as_bytes());
    let turned = checker
        .compare(side_b, side_a, scratch)
        .sure(what.as_bytes());
    assert_eq!(compared, turned, "{what}");
    assert_eq!(compared.number, 0, "{what}");
    let same_term = left.term == right.term;
    assert_eq!(compared.equal == 1, same_term, "{what}");
    compared.equal == 1
}

/// The library's plain text of a message is the value's own.
fn writes(seed: u64, message: &[u8], value: &Value) {
    let plain = value.plain();
    let mut checker = Checker::new(seed);
    let decoding = checker.decode(message, PROGRAM).sure(message);
    let table = decoding.table(message);
    let scratch = table.used as usize;
    let (written, text) = checker.write(table, scratch, plain.len()).sure(message);
    assert_eq!(written.number, 0, "seed {seed}: {}", shown(message));
    assert_eq!(shown(&text), shown(&plain), "seed {seed}");
}

fn random_value(noise: &mut Noise) -> Value {
    let size = 1 + noise.below(30);
    Value::random(noise, size)
}

#[test]
fn one_term_spelled_twice_is_equal() {
    for seed in 0..PAIRS {
        let mut noise = Noise::new(seed);
        let value = random_value(&mut noise);
        let (a, b) = (spell(&mut noise, &value), spell(&mut noise, &value));
        assert!(
            equal(seed, &a, &b),
            "seed {seed}: {} {}",
            shown(&a),
            shown(&b)
        );
        writes(seed, &a, &value);
        writes(seed, &b, &value);
        assert!(
            equal(seed, &a, &value.plain()),
            "seed {seed}: {}",
            shown(&a)
        );
    }
}

#[test]
fn terms_that_differ_in_one_place_are_different() {
    for seed in PAIRS..2 * PAIRS {
        let mut noise = Noise::new(seed);
        let value = random_value(&mut noise);
        let mut other = value.clone();
        match noise.below(3) {
            0 => other.change_kind(&mut noise),
            _ => other.change_leaf(&mut noise),
        }
        assert_ne!(value.plain(), other.plain(), "seed {seed}");
        let (a, b) = (spell(&mut noise, &value), spell(&mut noise, &other));
        assert!(
            !equal(seed, &a, &b),
            "seed {seed}: {} {}",
            shown(&a),
            shown(&b)
        );
    }
}

/// One of few small values, so that two of them are the same now and then.
fn small(noise: &mut Noise, depth: usize) -> Value {
    let several = |noise: &mut Noise| {
        let count = noise.below(3);
        (0..count).map(|_| small(noise, depth - 1)).collect()
    };
    match noise.below(if depth > 0 { 7 } else { 4 }) {
        0 => Value::Integer(0),
        1 => Value::Integer(1),
        2 => Value::Atom(b"a".to_vec()),
        3 => Value::String(b"a".to_vec()),
        4 => Value::List(several(noise)),
        5 => Value::Tuple(several(noise)),
        _ => Value::Tag(b"a".to_vec(), Box::new(small(noise, depth - 1))),
    }
}

#[test]
fn small_terms_are_equal_where_their_texts_are() {
    let mut times = [0, 0];
    for seed in 2 * PAIRS..3 * PAIRS {
        let mut noise = Noise::new(seed);
        let (one, other) = (small(&mut noise, 2), small(&mut noise, 2));
        let (a, b) = (spell(&mut noise, &one), spell(&mut noise, &other));
        let same_text = one.plain() == other.plain();
        assert_eq!(
            equal(seed, &a, &b),
            same_text,
            "seed {seed}: {} {}",
            shown(&a),
            shown(&b)
        );
        times[usize::from(same_text)] += 1;
    }
    println!("different {}, equal {}", times[0], times[1]);
    assert!(times.iter().all(|&count| count >= 300));
}

/// The header lets slices that are only read overlap: one table, and one message, for both sides.
#[test]
fn both_sides_may_be_the_same_slices() {
    for seed in 0..500 {
        let mut noise = Noise::new(seed);
        let value = random_value(&mut noise);
        let message = spell(&mut noise, &value);
        let mut checker = Checker::new(seed);
        let decoding = checker.decode(&message, PROGRAM).sure(&message);
        let table = decoding.table(&message);
        let mut scratch = vec![1; 2 * table.used as usize];
        let compared = library::compare(table, table, &mut scratch);
        assert_eq!(
            [compared.number, compared.equal],
            [0, 1],
            "{}",
            shown(&message)
        );
        assert!(scratch.iter().all(|&word| word == 0), "{}", shown(&message));
    }
}
