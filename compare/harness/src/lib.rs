//! The archive beside the original: what each answers to the same input, and what the scope says of both.

pub mod archive;
pub mod bch;
pub mod combine;
pub mod input;
pub mod ldpc;
pub mod lent;
pub mod quantise;
pub mod random;
pub mod run;
pub mod scope;
pub mod window;
