//! What a run has met, counted.

use conformance::header;
use std::collections::BTreeMap;
use std::fmt::{self, Display, Formatter};

#[derive(Default)]
pub struct Counts {
    pub accepted: u64,
    pub refused: BTreeMap<u32, u64>,
    /// Bytes of the messages; of a refused one on a tape, those before the refusal's place.
    pub bytes: u64,
    /// Bytes of tapes after a message that could not be cut.
    pub not_looked_at: u64,
    /// Accepted messages with texts too long to be compared.
    pub long_texts: u64,
    pub differences: u64,
}

impl Counts {
    pub fn messages(&self) -> u64 {
        self.accepted + self.all_refused()
    }

    pub fn all_refused(&self) -> u64 {
        self.refused.values().sum()
    }
}

impl Display for Counts {
    fn fmt(&self, out: &mut Formatter) -> fmt::Result {
        writeln!(out, "messages       {:>12}", self.messages())?;
        writeln!(out, "accepted       {:>12}", self.accepted)?;
        writeln!(out, "refused        {:>12}", self.all_refused())?;
        writeln!(out, "bytes          {:>12}", self.bytes)?;
        writeln!(out, "not looked at  {:>12}", self.not_looked_at)?;
        writeln!(out, "long texts     {:>12}", self.long_texts)?;
        writeln!(out, "differences    {:>12}", self.differences)?;
        if !self.refused.is_empty() {
            writeln!(out, "\nrefusal      times  meaning")?;
        }
        for (&number, times) in &self.refused {
            let meaning = meaning(number);
            writeln!(out, "{number:>7}  {times:>9}  {meaning}")?;
        }
        Ok(())
    }
}

/// When a refusal is given, in the words of the C header.
fn meaning(number: u32) -> &'static str {
    let mut refusals = header::REFUSALS.iter();
    let found = refusals.find(|&&(refusal, _)| refusal == number);
    found.map_or("no number of 01", |&(_, meaning)| meaning)
}
