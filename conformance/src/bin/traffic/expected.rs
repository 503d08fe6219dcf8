//! Another decoder's answers, one after the other.

use conformance::check::shown;

/// A file of answers. A plain text may hold newlines, so it is read by what is due next.
pub struct Expected {
    bytes: Vec<u8>,
    at: usize,
}

impl Expected {
    pub fn new(bytes: Vec<u8>) -> Expected {
        Expected { bytes, at: 0 }
    }

    /// Takes the next answer: nothing where it is the one due; else what stands there, which is passed over to its newline.
    pub fn other_than(&mut self, due: &[u8]) -> Option<String> {
        let line = [due, b"\n"].concat();
        let left = &self.bytes[self.at..];
        if left.starts_with(&line) {
            self.at += line.len();
            return None;
        }
        if left.is_empty() {
            return Some("the other decoder has no answers left".to_string());
        }
        let end = left.iter().position(|&byte| byte == b'\n');
        let other = &left[..end.map_or(left.len(), |newline| newline + 1)];
        let difference = format!(
            "library answers {}, the other decoder {}, at byte {} of its answers",
            shown(&line),
            shown(other),
            self.at
        );
        self.at += other.len();
        Some(difference)
    }

    /// What is left over once every message has had its answer.
    pub fn left_over(&self) -> Option<String> {
        let left = &self.bytes[self.at..];
        (!left.is_empty()).then(|| {
            let at = self.at;
            format!(
                "the other decoder has more answers than there are messages, from byte {at} on: {}",
                shown(left)
            )
        })
    }
}
