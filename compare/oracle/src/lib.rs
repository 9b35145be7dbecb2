//! The original's `bch`, `simd` and `ldpc`, each compiled from its own file, and what the programs share.

include!(concat!(env!("OUT_DIR"), "/original.rs"));

pub mod poly;
pub mod rounds;

/// A word that the original calls `Uncorrectable`, and how many of its bits the original had flipped by then.
#[derive(Clone, Copy, PartialEq, Eq, Debug)]
pub struct Lost {
    pub flips: usize,
}

/// The original's `bch::decode` on a copy of the word. The word becomes the copy, or is left as it came, every byte, where the
/// original returns `Uncorrectable`: its flips are taken back.
pub fn decode_or_leave(word: &mut [u8]) -> Result<usize, Lost> {
    let mut copy = word.to_vec();
    match bch::decode(&mut copy) {
        Ok(fixed) => {
            word.copy_from_slice(&copy);
            Ok(fixed)
        }
        Err(bch::Uncorrectable) => Err(Lost {
            flips: word.iter().zip(&copy).filter(|(a, b)| a != b).count(),
        }),
    }
}
