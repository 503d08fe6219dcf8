//! The library under test, as include/ubfa.h declares it, behind functions on slices.

use crate::model::rows::Table;

#[repr(C)]
#[derive(Clone, Copy, Debug, PartialEq, Eq)]
pub struct Decoded {
    pub number: u32,
    pub place: u32,
    pub root: u32,
    pub rows: u32,
}

#[repr(C)]
#[derive(Clone, Copy, Debug, PartialEq, Eq)]
pub struct Compared {
    pub number: u32,
    pub equal: u32,
}

#[repr(C)]
#[derive(Clone, Copy, Debug, PartialEq, Eq)]
pub struct Written {
    pub number: u32,
    pub bytes: u64,
}

#[repr(C)]
#[derive(Clone, Copy, Debug, PartialEq, Eq)]
pub struct Word {
    pub number: u32,
    pub value: i64,
}

/// The four tables that a decoder works in.
pub struct Tables<'a> {
    pub rows: &'a mut [u32],
    pub stack: &'a mut [u32],
    pub marks: &'a mut [u32],
    pub registers: &'a mut [u32],
}

/// Functions on slices over linked ones of the interface's form: `decode`, `write` and `read_word`, by the names that those are linked by.
#[macro_export]
macro_rules! calls {
    ($decode:ident, $write:ident, $read_word:ident) => {
        extern "C" {
            fn $decode(
                message: *const u8,
                message_bytes: usize,
                rows: *mut u32,
                row_words: usize,
                stack: *mut u32,
                stack_words: usize,
                marks: *mut u32,
                mark_words: usize,
                registers: *mut u32,
                register_words: usize,
            ) -> $crate::library::Decoded;

            fn $write(
                message: *const u8,
                message_bytes: usize,
                rows: *const u32,
                row_words: usize,
                used: u32,
                root: u32,
                scratch: *mut u32,
                scratch_words: usize,
                output: *mut u8,
                output_bytes: usize,
            ) -> $crate::library::Written;

            fn $read_word(
                message: *const u8,
                message_bytes: usize,
                rows: *const u32,
                row_words: usize,
                used: u32,
                row: u32,
                k: u64,
            ) -> $crate::library::Word;
        }

        pub fn decode(message: &[u8], tables: $crate::library::Tables) -> $crate::library::Decoded {
            // SAFETY: each pointer and count come from one Rust slice, so they are valid, aligned and not null, and those borrowed
            // for writing overlap nothing. The same holds for the functions below.
            unsafe {
                $decode(
                    message.as_ptr(),
                    message.len(),
                    tables.rows.as_mut_ptr(),
                    tables.rows.len(),
                    tables.stack.as_mut_ptr(),
                    tables.stack.len(),
                    tables.marks.as_mut_ptr(),
                    tables.marks.len(),
                    tables.registers.as_mut_ptr(),
                    tables.registers.len(),
                )
            }
        }

        pub fn write(
            table: $crate::model::rows::Table,
            scratch: &mut [u32],
            output: &mut [u8],
        ) -> $crate::library::Written {
            // SAFETY: as for `decode`.
            unsafe {
                $write(
                    table.message.as_ptr(),
                    table.message.len(),
                    table.rows.as_ptr(),
                    table.rows.len(),
                    table.used,
                    table.root,
                    scratch.as_mut_ptr(),
                    scratch.len(),
                    output.as_mut_ptr(),
                    output.len(),
                )
            }
        }

        /// Word `k` of the block at the table's root, which stands in the row's place.
        pub fn read_word(table: $crate::model::rows::Table, k: u64) -> $crate::library::Word {
            // SAFETY: as for `decode`.
            unsafe {
                $read_word(
                    table.message.as_ptr(),
                    table.message.len(),
                    table.rows.as_ptr(),
                    table.rows.len(),
                    table.used,
                    table.root,
                    k,
                )
            }
        }
    };
}

calls!(ubfa_decode, ubfa_write, ubfa_read_word);

extern "C" {
    fn ubfa_compare(
        message_a: *const u8,
        message_a_bytes: usize,
        rows_a: *const u32,
        row_words_a: usize,
        used_a: u32,
        root_a: u32,
        message_b: *const u8,
        message_b_bytes: usize,
        rows_b: *const u32,
        row_words_b: usize,
        used_b: u32,
        root_b: u32,
        scratch: *mut u32,
        scratch_words: usize,
    ) -> Compared;
}

pub fn compare(a: Table, b: Table, scratch: &mut [u32]) -> Compared {
    // SAFETY: as for `decode`.
    unsafe {
        ubfa_compare(
            a.message.as_ptr(),
            a.message.len(),
            a.rows.as_ptr(),
            a.rows.len(),
            a.used,
            a.root,
            b.message.as_ptr(),
            b.message.len(),
            b.rows.as_ptr(),
            b.rows.len(),
            b.used,
            b.root,
            scratch.as_mut_ptr(),
            scratch.len(),
        )
    }
}
