//! Hundreds of thousands of messages, sound, damaged and at random, in tables of random lengths.
//!
//! CONFORMANCE_SEED sets another base seed, CONFORMANCE_MESSAGES the messages for each; a failure says which to set.

use conformance::check::{shown, Checker, Decoding};
use conformance::messages::{any, lengths};
use conformance::noise::Noise;
use conformance::tables::Made;
use std::collections::BTreeMap;
use std::env;

const SEEDS: [u64; 4] = [
    0x5EED_0001,
    0x5EED_0002_0000_0000,
    0x2A,
    0xFFFF_FFFF_0000_0000,
];
const MESSAGES_EACH: u64 = 50_000;

/// How often each answer occurred: 0 for acceptance, or the refusal.
type Counts = BTreeMap<u32, u64>;

fn setting(name: &str) -> Option<u64> {
    let text = env::var(name).ok()?;
    Some(
        text.parse()
            .unwrap_or_else(|_| panic!("{name} is no number: {text}")),
    )
}

#[test]
fn random_messages_agree() {
    let seeds = setting("CONFORMANCE_SEED").map_or(SEEDS.to_vec(), |seed| vec![seed]);
    let each = setting("CONFORMANCE_MESSAGES").unwrap_or(MESSAGES_EACH);
    println!("base seeds {seeds:?}, {each} messages each");
    let runs: Vec<_> = seeds
        .iter()
        .map(|&seed| std::thread::spawn(move || run(seed, each)))
        .collect();
    let mut counts = Counts::new();
    for found in runs {
        let part = found
            .join()
            .unwrap_or_else(|panic| std::panic::resume_unwind(panic));
        part.into_iter()
            .for_each(|(number, times)| *counts.entry(number).or_default() += times);
    }
    println!("answers {counts:?}");
    assert_eq!(counts.get(&17), None, "17 is never given");
    if each >= MESSAGES_EACH && seeds.len() == SEEDS.len() {
        for number in [0].into_iter().chain(2..=14) {
            let times = counts.get(&number).copied().unwrap_or(0);
            assert!(times >= 500, "answer {number} occurred {times} times only");
        }
    }
}

fn run(base: u64, messages: u64) -> Counts {
    let mut counts = Counts::new();
    for at in 0..messages {
        let seed = base.wrapping_add(at);
        *counts.entry(one(seed)).or_default() += 1;
    }
    counts
}

/// One message through the decoder and, where it is accepted, through the other functions; the decoder's number.
fn one(seed: u64) -> u32 {
    let mut noise = Noise::new(seed);
    let message = any(&mut noise);
    let lent = lengths(&mut noise, message.len());
    let mut checker = Checker::new(noise.draw());
    let result = checker
        .decode(&message, lent)
        .agreed()
        .and_then(|decoding| {
            if decoding.accepted() {
                let [rows, consumed] = [decoding.answer.rows, decoding.answer.place];
                assert!(rows <= 2 * consumed, "{rows} rows of {consumed} bytes");
                use_table(&mut checker, &mut noise, &message, &decoding)?;
            }
            Ok(decoding.answer.number)
        });
    result.unwrap_or_else(|difference| {
        let message = shown(&message);
        panic!(
            "CONFORMANCE_SEED={seed} CONFORMANCE_MESSAGES=1: {message} with {lent:?}: {difference}"
        )
    })
}

fn use_table(
    checker: &mut Checker,
    noise: &mut Noise,
    message: &[u8],
    decoding: &Decoding,
) -> Result<(), String> {
    let table = decoding.table(message);
    let used = table.used as usize;
    let scratch = (used + noise.below(8)).saturating_sub(2);
    let output = match noise.below(3) {
        0 => noise.below(message.len() + 1),
        _ => 20 * message.len(),
    };
    checker.write(table, scratch, output).agreed()?;
    let scratch = (2 * used + noise.below(8)).saturating_sub(2);
    checker.compare(table, table, scratch).agreed()?;
    let mut asked = Made::of_table(table);
    asked.root = noise.below(used + 1) as u32;
    for _ in 0..3 {
        let k = noise.below(5) as u64;
        checker.read_word(asked.table(), k).agreed()?;
        asked.ask_tag(noise);
    }
    Ok(())
}
