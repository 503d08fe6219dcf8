//! What no decoder or writer can undercut: a look at every byte, a write to every row, a copy of the text.

use crate::timing::Contender;
use std::ffi::{c_int, c_void};
use std::hint::black_box;

extern "C" {
    fn memchr(bytes: *const c_void, byte: c_int, count: usize) -> *mut c_void;
    fn memset(bytes: *mut c_void, byte: c_int, count: usize) -> *mut c_void;
}

/// A byte to search for, and what stands in its place in the bytes that are searched.
const ABSENT: u8 = 0xFF;
const INSTEAD: u8 = 0xFE;

/// memchr over as many bytes as the message has, for one that is not there.
pub fn search(message: &[u8]) -> Contender<'static> {
    let other = |&byte: &u8| if byte == ABSENT { INSTEAD } else { byte };
    let bytes: Vec<u8> = message.iter().map(other).collect();
    Contender::new("floor: memchr", bytes.len(), move || {
        // SAFETY: pointer and count come from one slice.
        let found = unsafe { memchr(bytes.as_ptr().cast(), c_int::from(ABSENT), bytes.len()) };
        assert!(black_box(found).is_null());
    })
}

/// memset of so many words.
pub fn fill(words: usize) -> Contender<'static> {
    let mut bytes = vec![1_u8; 4 * words];
    Contender::new("floor: memset", bytes.len(), move || {
        // SAFETY: as for `search`.
        black_box(unsafe { memset(bytes.as_mut_ptr().cast(), 0, bytes.len()) });
    })
}

/// memcpy of a text, to another place within a page: at the same one, a processor may take a load to depend on an older store.
pub fn copy(text: &[u8]) -> Contender<'static> {
    const AWAY: usize = 2_048;
    let from = text.to_vec();
    let mut to = vec![0; AWAY + text.len()];
    Contender::new("floor: memcpy", text.len(), move || {
        to[AWAY..].copy_from_slice(black_box(&from));
        black_box(&mut to);
    })
}
