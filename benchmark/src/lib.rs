//! The library's speed beside that of C written for its contracts, of decoders of other formats, and of copying and clearing memory.

pub mod c;
pub mod comparing;
pub mod decoding;
pub mod encodings;
pub mod floors;
pub mod growth;
pub mod machine;
pub mod markdown;
pub mod measure;
pub mod mixes;
pub mod peers;
pub mod plot;
pub mod report;
pub mod sorted;
pub mod timing;
pub mod words;
pub mod writing;
