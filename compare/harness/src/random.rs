//! Numbers from a seed (splitmix64).

#[derive(Clone, Debug)]
pub struct Random(pub u64);

impl Random {
    pub fn next(&mut self) -> u64 {
        self.0 = self.0.wrapping_add(0x9e37_79b9_7f4a_7c15);
        let mut z = self.0;
        z = (z ^ (z >> 30)).wrapping_mul(0xbf58_476d_1ce4_e5b9);
        z = (z ^ (z >> 27)).wrapping_mul(0x94d0_49bb_1331_11eb);
        z ^ (z >> 31)
    }

    /// Below n; 0 for n = 0.
    pub fn below(&mut self, n: usize) -> usize {
        if n == 0 {
            0
        } else {
            (((self.next() >> 32) * n as u64) >> 32) as usize
        }
    }

    /// From a to b, both included.
    pub fn within(&mut self, a: usize, b: usize) -> usize {
        a + self.below(b - a + 1)
    }

    pub fn one_in(&mut self, n: usize) -> bool {
        self.below(n) == 0
    }

    pub fn pick<T: Copy>(&mut self, from: &[T]) -> T {
        from[self.below(from.len())]
    }

    /// In 0..1.
    pub fn unit(&mut self) -> f64 {
        (self.next() >> 11) as f64 / (1u64 << 53) as f64
    }

    /// Near to normal, with mean 0 and deviation 1: the sum of eight bytes.
    pub fn normal(&mut self) -> f64 {
        let sum: i32 = self
            .next()
            .to_le_bytes()
            .iter()
            .map(|&b| i32::from(b))
            .sum();
        f64::from(sum - 1020) / 209.0
    }

    pub fn bytes(&mut self, n: usize) -> Vec<u8> {
        let mut v = Vec::with_capacity(n + 8);
        while v.len() < n {
            v.extend(self.next().to_le_bytes());
        }
        v.truncate(n);
        v
    }

    /// Bytes 0 or 1.
    pub fn bits(&mut self, n: usize) -> Vec<u8> {
        let mut v = self.bytes(n);
        v.iter_mut().for_each(|b| *b &= 1);
        v
    }
}
