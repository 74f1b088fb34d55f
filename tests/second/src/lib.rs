//! A second, independent implementation of papers 01 and 02 (A1 to A6, A9, A11), for
//! comparison by test. Clear and literal rather than fast; see README.md.
#![forbid(unsafe_code)]

pub mod batch;
pub mod characters;
pub mod decode;
pub mod framing;
pub mod listing;
pub mod meaning;
pub mod message;
pub mod name_table;
pub mod operation;
pub mod random;
pub mod read;
pub mod replay;
pub mod replica;
pub mod snapshot;
pub mod trace;
pub mod write;
