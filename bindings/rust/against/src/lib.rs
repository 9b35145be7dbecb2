//! What the tests share: numbers from a seed, codes and words.

/// A generator of numbers: the same for the same seed.
pub struct Draw(u64);

impl Draw {
    /// Numbers from a seed.
    pub fn new(seed: u64) -> Self {
        Self(seed.wrapping_mul(0x9E37_79B9_7F4A_7C15) | 1)
    }

    /// The next number below `m`.
    pub fn below(&mut self, m: usize) -> usize {
        self.0 ^= self.0 << 13;
        self.0 ^= self.0 >> 7;
        self.0 ^= self.0 << 17;
        (self.0 >> 11) as usize % m
    }

    /// Bytes, all of whose bits vary if `whole`, else only the lowest.
    pub fn bytes(&mut self, len: usize, whole: bool) -> Vec<u8> {
        let m = if whole { 256 } else { 2 };
        (0..len).map(|_| self.below(m) as u8).collect()
    }

    /// A table: some rows empty, some addresses equal to the one before, or P or q further.
    pub fn table(&mut self, groups: usize, rows: usize, most: usize) -> Vec<Vec<u16>> {
        let p = 374 * (groups - rows);
        let mut last = 0;
        let mut address = |d: &mut Self| {
            last = match d.below(12) {
                0 => last,
                1 => last + p,
                2 => last + p / 374,
                _ => d.below(p),
            } % 65_536;
            last as u16
        };
        (0..rows)
            .map(|_| {
                let len = self.below(most + 1);
                (0..len).map(|_| address(self)).collect()
            })
            .collect()
    }

    /// Soft values of a word: ±`level`, with noise that is a sum of draws up to `noise` either way.
    pub fn soft(&mut self, word: &[u8], level: i32, noise: usize) -> Vec<i8> {
        word.iter()
            .map(|&b| {
                let sent = if b & 1 == 0 { level } else { -level };
                let sum: usize = (0..4).map(|_| self.below(2 * noise + 1)).sum();
                (sent + sum as i32 - 4 * noise as i32).clamp(-128, 127) as i8
            })
            .collect()
    }
}

/// 193 bits whose register has roots at `absent` places outside the word, 1 or more, and at `present` inside, at most 12
/// in all: BCH gives it up, and the original leaves `present` bits changed.
pub fn given_up(d: &mut Draw, present: usize, absent: usize) -> Vec<u8> {
    let mut word = [0; 193];
    for i in 0..absent {
        // x^p mod g for a place p past the word
        let mut message = vec![0; 100 + 100 * i + d.below(100)];
        message[0] = 1;
        for (w, r) in word[1..].iter_mut().zip(oracle::bch::parity(&message)) {
            *w ^= r;
        }
    }
    let mut left = present;
    while left > 0 {
        let at = d.below(193);
        if word[at] < 2 {
            word[at] = 2 + (word[at] ^ 1);
            left -= 1;
        }
    }
    word.iter().map(|b| b & 1).collect()
}

/// A table as `Code::new` takes it.
pub fn rows(table: &[Vec<u16>]) -> Vec<&[u16]> {
    table.iter().map(Vec::as_slice).collect()
}

/// Words as `decode_all` takes them.
pub fn words(soft: &[Vec<i8>]) -> Vec<&[i8]> {
    soft.iter().map(Vec::as_slice).collect()
}

/// What a call answers, or that it panics.
pub fn or_panics<T>(call: impl FnOnce() -> T) -> Option<T> {
    std::panic::catch_unwind(std::panic::AssertUnwindSafe(call)).ok()
}
