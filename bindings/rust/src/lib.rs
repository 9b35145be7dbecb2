//! Forward error correction of ISDB-S3 satellite receivers: the LDPC and BCH codes of ARIB STD-B44, with refusals by
//! number, a round limit, records of words, a tally, windows over the last words and combined soft words. The work is done
//! by `libraxdov.a`, whose functions are proved to meet their contracts; this crate lends them memory.
//!
//! - [`ldpc`] and [`bch`] have the names, signatures and results of isdb-rs (`isdb_fec::ldpc`, `isdb_fec::bch`), so
//!   that a program changes over by its imports. One result differs: [`bch::decode`] leaves an uncorrectable word as it
//!   was, where isdb-rs leaves bits changed in some. What else differs is said at each item.
//! - [`run`] decodes and corrects in one go and records each word; its [`run::Window`] keeps figures over the last
//!   finished words of many runs.
//! - [`combine()`] makes one soft word out of up to eight, which several receivers have of one transmission.
//!
//! A call on wrong sizes panics where the original does; [`ldpc::Code::try_new`], [`run::Runner::run`],
//! [`run::Window::new`] and [`combine()`] answer a [`Refusal`].
//!
//! ```
//! use raxdov::ldpc::Code;
//! use raxdov::run::{Runner, Settings, State};
//!
//! // a code of 748 bits, half of them information; the BCH word fills the information bits
//! let code = Code::new(748, &[&[0, 40, 121]]);
//! let message = vec![1; 374 - 192];
//! let sent = code.encode(&raxdov::bch::encode(&message));
//!
//! // a 0 is received as a positive value and a 1 as a negative one; three values have the wrong sign
//! let mut soft: Vec<i8> = sent.iter().map(|&b| if b == 0 { 20 } else { -20 }).collect();
//! for at in [5, 300, 600] {
//!     soft[at] = -soft[at] / 4;
//! }
//!
//! let mut bits = vec![0; 748];
//! let settings = Settings { first: 0, length: 374, ..Settings::new(1, 50) };
//! let ran = Runner::new().run(&code, &soft, &settings, &mut bits).unwrap();
//! assert_eq!((ran.records[0].state, ran.records[0].changed), (State::Met, 3));
//! assert_eq!(bits, sent);
//! ```
#![deny(missing_docs, unsafe_code)]

mod archive;
pub mod bch;
mod combine;
mod declared;
pub mod ldpc;
mod refusal;
pub mod run;

pub use combine::combine;
pub use ldpc::fixed::quantise;
pub use refusal::Refusal;
