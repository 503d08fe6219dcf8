//! UBF(A) once more, written from the manual page and the scope paper alone: the independent side of every comparison.

pub mod answers;
pub mod bytes;
pub mod decode;
pub mod forest;
pub mod rows;
pub mod text;
pub mod words;
