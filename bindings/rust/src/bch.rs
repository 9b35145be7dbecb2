//! The BCH code of ISDB-S3 (ARIB STD-B44 v2.1 §3.4 (1)): 192 parity bits, 12 errors corrected in words of 193 to 65,535
//! bits. Bits are bytes of which the lowest bit counts, highest power first, the message before its parity.
//!
//! ```
//! use raxdov::bch;
//!
//! let sent = bch::encode(b"\0\x01\x01\0\x01");
//! let mut word = sent.clone();
//! word[3] ^= 1;
//! word[100] ^= 1;
//! assert_eq!(bch::decode(&mut word), Ok(2));
//! assert_eq!(word, sent);
//! ```

use std::error::Error;
use std::fmt;

use crate::archive;

/// Table 3.4-1 of B44: the exponents of g₁ … g₁₂, whose product is the generator.
///
/// ```
/// // the degrees add up to the parity bits
/// let degree: u32 = raxdov::bch::TABLE_3_4_1.iter().map(|g| g[g.len() - 1]).sum();
/// assert_eq!(degree as usize, raxdov::bch::PARITY);
/// ```
pub const TABLE_3_4_1: [&[u32]; 12] = [
    &[0, 1, 3, 12, 16],
    &[0, 2, 3, 4, 8, 9, 11, 12, 16],
    &[0, 2, 3, 7, 9, 10, 11, 13, 16],
    &[0, 1, 3, 6, 7, 11, 12, 13, 16],
    &[0, 1, 2, 3, 5, 7, 8, 9, 11, 13, 16],
    &[0, 1, 6, 7, 9, 10, 12, 13, 16],
    &[0, 1, 2, 6, 9, 10, 11, 15, 16],
    &[0, 1, 3, 6, 8, 9, 12, 15, 16],
    &[0, 1, 4, 6, 8, 10, 11, 12, 13, 15, 16],
    &[0, 1, 2, 4, 6, 8, 9, 10, 11, 15, 16],
    &[0, 6, 8, 9, 10, 13, 14, 15, 16],
    &[0, 1, 2, 3, 5, 6, 7, 10, 11, 15, 16],
];

/// Bits that are corrected.
///
/// ```
/// use raxdov::bch;
///
/// let mut word = vec![0; 300];
/// word[..bch::T].fill(1);
/// assert_eq!(bch::decode(&mut word), Ok(12));
/// ```
pub const T: usize = 12;

/// Parity bits.
///
/// ```
/// assert_eq!(raxdov::bch::parity(&[1]).len(), raxdov::bch::PARITY);
/// ```
pub const PARITY: usize = 192;

/// The longest word.
///
/// ```
/// let mut word = vec![0; raxdov::bch::N_MAX];
/// assert_eq!(raxdov::bch::decode(&mut word), Ok(0));
/// ```
pub const N_MAX: usize = 65_535;

/// Too many errors for the code.
///
/// ```
/// use raxdov::bch;
///
/// let mut word = vec![1; 1000];
/// let lost = bch::decode(&mut word).unwrap_err();
/// assert_eq!(lost, bch::Uncorrectable);
/// assert_eq!(lost.to_string(), "BCH: uncorrectable");
/// ```
#[derive(Debug, Clone, Copy, PartialEq, Eq)]
pub struct Uncorrectable;

impl fmt::Display for Uncorrectable {
    fn fmt(&self, f: &mut fmt::Formatter<'_>) -> fmt::Result {
        write!(f, "BCH: uncorrectable")
    }
}

impl Error for Uncorrectable {}

/// The parity of a message: the remainder of x¹⁹² m(x), 192 bits.
///
/// ```
/// let message = [1, 0, 1];
/// assert_eq!(raxdov::bch::encode(&message)[3..], raxdov::bch::parity(&message));
/// ```
///
/// # Panics
///
/// If the message is over 65,343 bits (refusal 11).
pub fn parity(msg: &[u8]) -> Vec<u8> {
    let mut out = vec![0; PARITY];
    archive::bch_parity(msg, &mut out).unwrap_or_else(|refused| panic!("{refused}"));
    out
}

/// The codeword: the message's bytes as they are, then its parity.
///
/// ```
/// let mut word = raxdov::bch::encode(&[1, 1, 0, 1]);
/// assert_eq!(word.len(), 4 + 192);
/// assert_eq!(raxdov::bch::decode(&mut word), Ok(0));
/// ```
///
/// # Panics
///
/// If the message is over 65,343 bits (refusal 11).
pub fn encode(msg: &[u8]) -> Vec<u8> {
    let mut out = vec![0; msg.len() + PARITY];
    archive::bch_encode(msg, &mut out).unwrap_or_else(|refused| panic!("{refused}"));
    out
}

/// Corrects a word in place; the number of bits corrected. A word within 12 bits of a codeword of its length becomes
/// that codeword. Any other is uncorrectable, and every byte of it is left as it was; the original leaves some of these
/// words with bits changed.
///
/// ```
/// use raxdov::bch;
///
/// let mut word = [0; 193];
/// word[0] = 1;
/// assert_eq!(bch::decode(&mut word), Ok(1));
/// assert_eq!(word, [0; 193]);
///
/// // the first bit of a codeword is missing, and the last one is wrong
/// let mut word = bch::encode(&[1, 0]).split_off(1);
/// word[192] ^= 1;
/// let before = word.clone();
/// assert_eq!(bch::decode(&mut word), Err(bch::Uncorrectable));
/// assert_eq!(word, before);
/// ```
///
/// # Panics
///
/// If the word is not 193 to 65,535 bits (refusal 11).
pub fn decode(word: &mut [u8]) -> Result<usize, Uncorrectable> {
    let corrected = archive::bch_decode(word).unwrap_or_else(|refused| panic!("{refused}"));
    corrected.map(|count| count as usize).ok_or(Uncorrectable)
}
