//! A run over files: every message decoded twice, compared and counted.

use crate::counts::Counts;
use crate::expected::Expected;
use crate::paths;
use conformance::check::{Checked, Checker, Decoding, PROGRAM, PROGRAM_BYTES};
use conformance::header::{MARKS, MESSAGE_BYTES, REGISTER_WORDS, ROWS, ROW_WORDS, STACK_WORDS};
use conformance::library::{Decoded, Written};
use conformance::model::decode::{decode, Lent};
use conformance::model::forest::Forest;
use conformance::model::rows::Table;
use conformance::model::text;
use std::path::{Path, PathBuf};
use std::time::{Duration, Instant};

/// Texts up to this are compared.
const TEXT_BYTES: usize = 4 << 20;
/// The first bytes of a tape that are tried for a message, and how many times more are tried next.
const HEAD_BYTES: usize = 1024;
const HEAD_GROWS: usize = 8;
/// How often a long run says how far it is.
const PROGRESS: Duration = Duration::from_secs(3);

#[derive(Default)]
pub struct Settings {
    pub tape: bool,
    pub expect: Option<PathBuf>,
    pub paths: Vec<PathBuf>,
}

/// What the library makes of a message: its plain text, or a refusal, be it the decoder's or the writer's.
enum Outcome {
    Text(Vec<u8>),
    Refused { number: u32, place: u32 },
}

pub struct Run {
    expected: Option<Expected>,
    /// The most bytes of a tape handed to the decoders at once.
    slice_bytes: usize,
    text_bytes: usize,
    counts: Counts,
    last_said: Instant,
}

impl Run {
    /// Goes over the files, reports on standard output, and answers how many differences there are.
    pub fn over(settings: Settings) -> Result<u64, String> {
        let files = paths::files(&settings.paths)?;
        let answers = settings.expect.as_deref().map(paths::contents);
        let mut run = Run::new(answers.transpose()?);
        for file in files {
            let bytes = paths::contents(&file)?;
            match settings.tape {
                true => run.tape(&file, &bytes),
                false => run.file(&file, &bytes),
            }
        }
        run.end()
    }

    /// With another decoder's answers the room is the program's, else all that 01 allows.
    fn new(answers: Option<Vec<u8>>) -> Run {
        let (slice_bytes, text_bytes) = match answers {
            Some(_) => (PROGRAM_BYTES, PROGRAM_BYTES),
            None => (MESSAGE_BYTES, TEXT_BYTES),
        };
        Run {
            expected: answers.map(Expected::new),
            slice_bytes,
            text_bytes,
            counts: Counts::default(),
            last_said: Instant::now(),
        }
    }

    fn end(mut self) -> Result<u64, String> {
        if self.counts.messages() == 0 {
            return Err("no messages".to_string());
        }
        if let Some(left) = self.expected.as_ref().and_then(Expected::left_over) {
            println!("difference: {left}");
            self.counts.differences += 1;
        }
        print!("{}", self.counts);
        Ok(self.counts.differences)
    }

    /// A file of one message.
    fn file(&mut self, file: &Path, bytes: &[u8]) {
        self.message(file, 0, bytes);
        self.counts.bytes += bytes.len() as u64;
    }

    /// A file of messages end to end.
    fn tape(&mut self, file: &Path, bytes: &[u8]) {
        let mut offset = 0;
        while !bytes[offset..].iter().all(|byte| b" \t\n\r".contains(byte)) {
            let slice = self.head(&bytes[offset..]);
            let (looked_at, cut) = self.message(file, offset, slice);
            self.counts.bytes += looked_at as u64;
            if !cut {
                self.leave(file, offset, bytes.len() - offset - looked_at);
                return;
            }
            offset += looked_at;
        }
    }

    /// As much of a tape as decides on its first message. No answer but 3 changes with the bytes that follow, so more is tried
    /// only where that is the answer; to lend the whole rest for each message would take long.
    fn head<'a>(&self, left: &'a [u8]) -> &'a [u8] {
        let most = left.len().min(self.slice_bytes);
        let mut bytes = most.min(HEAD_BYTES);
        while bytes < most && self.is_cut(&left[..bytes]) {
            bytes = most.min(bytes * HEAD_GROWS);
        }
        &left[..bytes]
    }

    fn is_cut(&self, slice: &[u8]) -> bool {
        decode(&mut Forest::new(), slice, self.lent(slice.len())).number == 3
    }

    /// The tables for a message of so many bytes: the program's, or as much of the largest as so many bytes can use, which are two
    /// rows, a value and a noted depth for each.
    fn lent(&self, bytes: usize) -> Lent {
        match self.expected {
            Some(_) => PROGRAM,
            None => Lent {
                rows: ROWS.min(2 * bytes) * ROW_WORDS,
                stack: STACK_WORDS.min(bytes),
                marks: MARKS.min(bytes),
                registers: REGISTER_WORDS,
            },
        }
    }

    /// The rest of a tape after a message that is not accepted, and of which nobody knows where it ends.
    fn leave(&mut self, file: &Path, offset: usize, rest: usize) {
        if rest > 0 {
            let name = file.display();
            println!("{name}: the message at offset {offset} is not accepted, so {rest} bytes of the tape cannot be cut and are not looked at");
            self.counts.not_looked_at += rest as u64;
        }
    }

    /// One message at an offset of a file: how many of its bytes were looked at, and whether it surely ends there.
    fn message(&mut self, file: &Path, offset: usize, slice: &[u8]) -> (usize, bool) {
        let mut checker = Checker::new(self.counts.messages());
        let Checked {
            answer: decoding,
            difference,
        } = checker.decode(slice, self.lent(slice.len()));
        let cut = difference.is_none() && decoding.accepted();
        self.report(file, offset, difference);
        let outcome = if self.expected.is_some() && slice.len() > PROGRAM_BYTES {
            Outcome::Refused {
                number: 1,
                place: 0,
            }
        } else if decoding.accepted() {
            self.written(file, offset, slice, &decoding, &mut checker)
        } else {
            let Decoded { number, place, .. } = decoding.answer;
            Outcome::Refused { number, place }
        };
        self.count(&outcome);
        self.expect(file, offset, &outcome);
        self.say_progress();
        ((decoding.answer.place as usize).min(slice.len()), cut)
    }

    /// What the library writes of a message that it accepted.
    fn written(
        &mut self,
        file: &Path,
        offset: usize,
        slice: &[u8],
        decoding: &Decoding,
        checker: &mut Checker,
    ) -> Outcome {
        let length = |term| text::length(&checker.forest, term);
        let length = decoding.term.map_or(u128::MAX, length);
        let output = length.min(self.text_bytes as u128) as usize;
        let table = trimmed(decoding, slice);
        let Checked { answer, difference } =
            checker.write(table, ROWS.min(table.used as usize), output);
        self.report(file, offset, difference);
        match answer {
            (Written { number: 0, .. }, text) => Outcome::Text(text),
            (Written { number, .. }, _) => Outcome::Refused { number, place: 0 },
        }
    }

    fn report(&mut self, file: &Path, offset: usize, difference: Option<String>) {
        if let Some(difference) = difference {
            println!(
                "difference: {}, offset {offset}: {difference}",
                file.display()
            );
            self.counts.differences += 1;
        }
    }

    /// A message with a text too long to be compared is an accepted one; but the program, where it is asked, refuses it.
    fn count(&mut self, outcome: &Outcome) {
        match outcome {
            Outcome::Text(_) => self.counts.accepted += 1,
            Outcome::Refused { number: 15, .. } if self.expected.is_none() => {
                self.counts.accepted += 1;
                self.counts.long_texts += 1;
            }
            Outcome::Refused { number, .. } => {
                *self.counts.refused.entry(*number).or_default() += 1;
            }
        }
    }

    /// Compares with the other decoder's answer, if there is another decoder.
    fn expect(&mut self, file: &Path, offset: usize, outcome: &Outcome) {
        let Some(expected) = &mut self.expected else {
            return;
        };
        let other = match outcome {
            Outcome::Text(text) => expected.other_than(text),
            Outcome::Refused { number, place } => {
                expected.other_than(format!("refused {number} at {place}").as_bytes())
            }
        };
        self.report(file, offset, other);
    }

    fn say_progress(&mut self) {
        if self.last_said.elapsed() >= PROGRESS {
            let Counts {
                bytes, differences, ..
            } = self.counts;
            let messages = self.counts.messages();
            eprintln!("{messages} messages, {bytes} bytes, {differences} differences so far");
            self.last_said = Instant::now();
        }
    }
}

/// The table as the decoder left it, but for the bytes after the `$` and the words past the rows used, which take time to lend.
fn trimmed<'a>(decoding: &'a Decoding, slice: &'a [u8]) -> Table<'a> {
    let consumed = slice.len().min(decoding.answer.place as usize);
    let words = decoding.answer.rows as usize * ROW_WORDS;
    Table {
        rows: &decoding.rows[..decoding.rows.len().min(words)],
        ..decoding.table(&slice[..consumed])
    }
}
