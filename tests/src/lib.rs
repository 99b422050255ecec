//! Another implementation of the stream cipher Strumok (DSTU 8845:2019) and of the block cipher of
//! DSTU 7624:2014, written from the ciphers' descriptions alone and independent of the proved
//! library, which the tests run beside it. Both have the π tables from one file, and share nothing
//! else. And another reader of order files, written from RFC 4180 and the request.
//!
//! - [`field`]: the two fields, α and T, by their rules, and the tables made from them;
//! - [`cipher`]: registers, steps forward and back, loading, keystream words;
//! - [`kalyna`]: the block cipher of DSTU 7624:2014, which T's tables and matrix come from;
//! - [`calls`]: the calls with their refusals, and what the cipher program must write;
//! - [`vectors`]: the published vectors, and the list that the program `vectors` prints;
//! - [`edges`]: the lists that the programs `edges`, `checks` and `step_words` print;
//! - [`grammar`]: the grammar of order files, and what a text is by it, for short texts;
//! - [`csv`]: the table of an order file or its first fault, by the definitions and in one pass;
//! - [`random`]: the seeded generator that makes the tests' inputs.

pub mod calls;
pub mod cipher;
pub mod csv;
pub mod edges;
pub mod field;
pub mod grammar;
pub mod kalyna;
pub mod random;
pub mod vectors;
