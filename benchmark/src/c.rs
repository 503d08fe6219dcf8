//! The C written for the library's contracts, behind the same functions on slices as the library, and the plain loops over words.

/// What the two variants are, a sentence each.
pub const NOTES: &str = "\
Careful C is the library's contracts in plain C, compiled with gcc -O3: every byte of a message is read by itself, once it is known to be \
there, the range is checked at every digit, and digits are written one by one. \
Tuned C is the same program with eight bytes at once or memchr in quoted text, no check for each digit that is read, and digits written \
in pairs.";

pub mod careful {
    conformance::calls!(careful_decode, careful_write, careful_read_word);
}

pub mod tuned {
    conformance::calls!(tuned_decode, tuned_write, tuned_read_word);
}

extern "C" {
    fn plain_u8(bytes: *const u8, count: usize) -> i64;
    fn plain_i16be(bytes: *const u8, count: usize) -> i64;
    fn plain_i16le(bytes: *const u8, count: usize) -> i64;
    fn plain_u32be(bytes: *const u8, count: usize) -> i64;
    fn plain_u32le(bytes: *const u8, count: usize) -> i64;
}

/// A format of words: its name, its width, and the plain loop that adds up a block's words.
pub type Format = (&'static str, usize, fn(&[u8]) -> i64);

/// The formats that are timed.
pub const FORMATS: [Format; 5] = [
    // SAFETY: pointer and count come from one slice, in all five.
    ("u8", 1, |bytes| unsafe {
        plain_u8(bytes.as_ptr(), bytes.len())
    }),
    ("i16be", 2, |bytes| unsafe {
        plain_i16be(bytes.as_ptr(), bytes.len())
    }),
    ("i16le", 2, |bytes| unsafe {
        plain_i16le(bytes.as_ptr(), bytes.len())
    }),
    ("u32be", 4, |bytes| unsafe {
        plain_u32be(bytes.as_ptr(), bytes.len())
    }),
    ("u32le", 4, |bytes| unsafe {
        plain_u32le(bytes.as_ptr(), bytes.len())
    }),
];
