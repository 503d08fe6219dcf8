//! Every test of the library through its C interface, in one program. A module is a group that `faults/run` can ask for by its name.

mod bench;
mod limits;
mod long;
mod pairs;
mod program;
mod promises;
mod random;
mod refusals;
mod traffic;
mod unsound;
mod words;
