//! One soft word out of several.

use crate::archive;
use crate::refusal::Refusal;

/// One soft word out of 1 to 8, which several receivers have of one transmission: `out[i]` is the exact sum of the words'
/// values at i, clamped to ±127 once, at the end. So the order of the words makes no difference, and neither does a word
/// of zeros beside others. One word alone comes out as it is, but a value of -128 as -127 (a run of the word itself reads
/// -128 as it is).
///
/// A value of 0 adds nothing, so 0 stands for what a receiver does not have. Where the sum is 0 a run takes the bit for a
/// 0. A word of zeros meets every check: a run records it as met, with no bit corrected or changed, and counts it as
/// kept. So run no word that nobody has.
///
/// `soft` has the words one after the other, and `lengths` the length of each; they are equal. A word may be of any
/// length here; where the lengths are 0 nothing is written. To combine all the words of a run in one call, the words here
/// are all the soft values of each receiver: those of the first, then those of the second, and so on. Unlike
/// [`quantise`](crate::quantise), this does not make `out` longer; what `out` has behind the word is left as it was.
///
/// What a run promises and records of a combined word, [`Record::changed`](crate::run::Record::changed) too, is of that
/// word and not of the words that it was made of.
///
/// ```
/// use raxdov::ldpc::Code;
/// use raxdov::run::{Runner, Settings, State};
///
/// let code = Code::new(748, &[&[0, 40, 121]]);
/// let sent = code.encode(&raxdov::bch::encode(&vec![1; 374 - 192]));
///
/// // the word is received twice: once its first half is missing, once its last third, and there is no noise
/// let values = sent.iter().map(|&b| if b == 0 { 20 } else { -20 });
/// let mut soft: Vec<i8> = values.clone().chain(values).collect();
/// soft[..374].fill(0);
/// soft[748 + 500..].fill(0);
///
/// let mut word = vec![0; 748];
/// raxdov::combine(&[748, 748], &soft, &mut word).unwrap();
/// // where both are there they add up
/// assert_eq!((word[0].abs(), word[400].abs(), word[747].abs()), (20, 40, 20));
///
/// let settings = Settings { first: 0, length: 374, ..Settings::new(1, 50) };
/// let mut bits = vec![0; 748];
/// let ran = Runner::new().run(&code, &word, &settings, &mut bits).unwrap();
/// assert_eq!((ran.records[0].state, ran.records[0].changed), (State::Met, 0));
/// assert_eq!(bits, sent);
/// ```
///
/// # Errors
///
/// 15 ([`Refusal::Lengths`]), if `lengths` has not 1 to 8 elements, they are not equal, or their sum is not the length of
/// `soft`. Else 13 ([`Refusal::TooShort`]), if `out` is shorter than one word. Then `out` is unchanged.
///
/// ```
/// use raxdov::{Refusal, combine};
///
/// let mut out = [9; 3];
/// assert_eq!(combine(&[2, 2], &[1, 2, 3, 4], &mut out), Ok(()));
/// assert_eq!(out, [4, 6, 9]);
/// assert_eq!(combine(&[2, 1], &[1, 2, 3], &mut out), Err(Refusal::Lengths));
/// assert_eq!(combine(&[2, 2], &[1, 2, 3, 4], &mut out[..1]), Err(Refusal::TooShort));
/// assert_eq!(out, [4, 6, 9]);
/// ```
pub fn combine(lengths: &[u32], soft: &[i8], out: &mut [i8]) -> Result<(), Refusal> {
    archive::combine(lengths, soft, out)
}
