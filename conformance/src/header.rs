//! 01's bounds and the words for each refusal, as include/ubfa.h has them; build.rs takes them from there.

include!(concat!(env!("OUT_DIR"), "/header.rs"));

#[cfg(test)]
mod tests {
    use super::*;

    #[test]
    fn every_refusal_has_its_words() {
        let numbers: Vec<u32> = REFUSALS.iter().map(|&(number, _)| number).collect();
        assert_eq!(numbers, (1..=20).collect::<Vec<u32>>());
        assert!(REFUSALS.iter().all(|(_, meaning)| !meaning.is_empty()));
    }
}
