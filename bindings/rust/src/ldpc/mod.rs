//! The LDPC codes of ISDB-S3 (ARIB STD-B44 v2.1 §3.4 (2)), each from a table of addresses: information bit 374 g + j
//! meets check (a + j q) mod P for each address a of row g, and check c has the parity bits c − 1 and c besides.
//!
//! ```
//! use raxdov::ldpc::Code;
//!
//! let code = Code::new(748, &[&[0]]);
//! let mut word = code.encode(&[1; 374]);
//! assert_eq!(code.syndrome_weight(&word), 0);
//! word[0] ^= 1;
//! assert_eq!(code.syndrome_weight(&word), 1);
//! ```

use std::error::Error;
use std::fmt;
use std::sync::Arc;

use crate::archive::{self, Lent};
use crate::refusal::Refusal;

pub mod fixed;

/// Information bits for each row of a table.
///
/// ```
/// use raxdov::ldpc::{Code, GROUP};
///
/// assert_eq!(Code::new(5 * GROUP, &[&[1], &[2, 3]]).k(), 2 * GROUP);
/// ```
pub const GROUP: usize = 374;

/// One code: its table, and the bits of every check. A clone shares them.
///
/// The original's float decoder `Code::decode` is not here.
///
/// ```
/// let code = raxdov::ldpc::Code::new(748, &[&[0]]);
/// assert_eq!((code.n(), code.k(), code.checks(), code.q()), (748, 374, 374, 1));
/// ```
#[derive(Debug, Clone)]
pub struct Code {
    n: u32,
    k: usize,
    /// How many addresses each row has, and the addresses.
    lens: Arc<[u32]>,
    addrs: Arc<[u16]>,
    /// Where each check's bits start (P + 1 numbers), then the bits.
    lists: Arc<[u32]>,
}

/// The decoder found no codeword within its iteration limit.
///
/// ```
/// use raxdov::ldpc::NotConverged;
///
/// let not = NotConverged { iterations: 50, unsatisfied: 3 };
/// assert_eq!(not.to_string(), "LDPC: no codeword after 50 iterations (3 checks unsatisfied)");
/// ```
#[derive(Debug, Clone, Copy, PartialEq, Eq)]
pub struct NotConverged {
    /// Iterations run.
    pub iterations: usize,
    /// Checks still unsatisfied at the end.
    pub unsatisfied: usize,
}

impl fmt::Display for NotConverged {
    fn fmt(&self, f: &mut fmt::Formatter<'_>) -> fmt::Result {
        let Self {
            iterations,
            unsatisfied,
        } = self;
        write!(
            f,
            "LDPC: no codeword after {iterations} iterations ({unsatisfied} checks unsatisfied)"
        )
    }
}

impl Error for NotConverged {}

/// What a successful decode took.
///
/// ```
/// use raxdov::ldpc::{Code, Decoded, fixed::{Decoder, Params}};
///
/// let code = Code::new(748, &[&[0]]);
/// let results = Decoder::<1>::default().decode_all(&code, &[&[1; 748]], Params::new(50, 0));
/// assert_eq!(results[0].0, Ok(Decoded { iterations: 0 }));
/// ```
#[derive(Debug, Clone, Copy, PartialEq, Eq)]
pub struct Decoded {
    /// Iterations until every check was satisfied (0: the hard decisions of the input were a codeword).
    pub iterations: usize,
}

impl Code {
    /// The code of length `n` from `table` (a row of addresses for each [`GROUP`] information bits): k = 374 · rows.
    ///
    /// ```
    /// let code = raxdov::ldpc::Code::new(1122, &[&[0, 7], &[500]]);
    /// assert_eq!(code.k(), 748);
    /// ```
    ///
    /// # Panics
    ///
    /// If k ≥ n or n − k is not a multiple of [`GROUP`], and, other than the original, where [`Code::try_new`] refuses.
    pub fn new(n: usize, table: &[&[u16]]) -> Self {
        Self::try_new(n, table).unwrap_or_else(|refused| panic!("{refused}"))
    }

    /// As [`Code::new`], with the refusal in place of a panic.
    ///
    /// ```
    /// use raxdov::{Refusal, ldpc::Code};
    ///
    /// assert_eq!(Code::try_new(45_254, &[]).unwrap_err(), Refusal::N);
    /// assert_eq!(Code::try_new(374, &[&[]]).unwrap_err(), Refusal::Rows);
    /// assert_eq!(Code::try_new(748, &[&[0; 129]]).unwrap_err(), Refusal::RowLength);
    /// assert_eq!(Code::try_new(748, &[&[0; 127]]).unwrap_err(), Refusal::EqualAddresses);
    /// assert!(Code::try_new(748, &[&[0; 126]]).is_ok());
    /// ```
    ///
    /// # Errors
    ///
    /// 2, 3, 4 and 6, by [`Refusal`].
    pub fn try_new(n: usize, table: &[&[u16]]) -> Result<Self, Refusal> {
        // what does not fit is refused with what does: by 2, and by 4 unless 2 or 3 comes first
        let n = u32::try_from(n).unwrap_or(u32::MAX);
        let lens: Arc<[u32]> = table
            .iter()
            .map(|row| u32::try_from(row.len()).unwrap_or(u32::MAX))
            .collect();
        let addrs: Arc<[u16]> = table.concat().into();
        let (lists, [k, ..]) = archive::ldpc_new(Lent {
            n,
            lens: &lens,
            addrs: &addrs,
        })?;
        Ok(Self {
            n,
            k: k as usize,
            lens,
            addrs,
            lists: lists.into(),
        })
    }

    pub(crate) fn lent(&self) -> Lent<'_> {
        Lent {
            n: self.n,
            lens: &self.lens,
            addrs: &self.addrs,
        }
    }

    /// Code length.
    ///
    /// ```
    /// assert_eq!(raxdov::ldpc::Code::new(748, &[&[0]]).n(), 748);
    /// ```
    pub fn n(&self) -> usize {
        self.n as usize
    }

    /// Information bits.
    ///
    /// ```
    /// assert_eq!(raxdov::ldpc::Code::new(748, &[&[0]]).k(), 374);
    /// ```
    pub fn k(&self) -> usize {
        self.k
    }

    /// Parity checks, P = n − k.
    ///
    /// ```
    /// assert_eq!(raxdov::ldpc::Code::new(1122, &[&[0]]).checks(), 748);
    /// ```
    pub fn checks(&self) -> usize {
        self.n() - self.k
    }

    /// q = P / 374: the layers of the layered schedule.
    ///
    /// ```
    /// assert_eq!(raxdov::ldpc::Code::new(1122, &[&[0]]).q(), 2);
    /// ```
    pub fn q(&self) -> usize {
        self.checks() / GROUP
    }

    /// The bits of check `c`, in the order of its edges: its information bits ascending, then k + c − 1 (none for c = 0)
    /// and k + c.
    ///
    /// ```
    /// let code = raxdov::ldpc::Code::new(748, &[&[0]]);
    /// assert_eq!(code.check(0), [0, 374]);
    /// assert_eq!(code.check(5), [5, 378, 379]);
    /// ```
    ///
    /// # Panics
    ///
    /// If c ≥ P.
    pub fn check(&self, c: usize) -> &[u32] {
        let (row_start, rows) = self.lists.split_at(self.checks() + 1);
        &rows[row_start[c] as usize..row_start[c + 1] as usize]
    }

    /// The parity of `k` information bits: P bits.
    ///
    /// ```
    /// let code = raxdov::ldpc::Code::new(748, &[&[0]]);
    /// let mut info = [0; 374];
    /// info[0] = 1;
    /// assert_eq!(code.parity(&info), [1; 374]);
    /// ```
    ///
    /// # Panics
    ///
    /// If `info` is not k long.
    pub fn parity(&self, info: &[u8]) -> Vec<u8> {
        assert_eq!(info.len(), self.k);
        let mut out = vec![0; self.checks()];
        archive::ldpc_parity(self.lent(), info, &mut out)
            .unwrap_or_else(|refused| panic!("{refused}"));
        out
    }

    /// The codeword: the bytes of `info` as they are, then its parity.
    ///
    /// ```
    /// let code = raxdov::ldpc::Code::new(748, &[&[0]]);
    /// assert_eq!(code.encode(&[0; 374]), [0; 748]);
    /// ```
    ///
    /// # Panics
    ///
    /// If `info` is not k long.
    pub fn encode(&self, info: &[u8]) -> Vec<u8> {
        assert_eq!(info.len(), self.k);
        let mut out = vec![0; self.n()];
        archive::ldpc_encode(self.lent(), info, &mut out)
            .unwrap_or_else(|refused| panic!("{refused}"));
        out
    }

    /// How many checks the first n bits of `bits` leave unsatisfied.
    ///
    /// ```
    /// let code = raxdov::ldpc::Code::new(748, &[&[0]]);
    /// assert_eq!(code.syndrome_weight(&[1; 748]), 373);
    /// ```
    ///
    /// # Panics
    ///
    /// If `bits` is shorter than n.
    pub fn syndrome_weight(&self, bits: &[u8]) -> usize {
        let weight = archive::ldpc_syndrome_weight(self.lent(), &bits[..self.n()]);
        weight.unwrap_or_else(|refused| panic!("{refused}")) as usize
    }
}

#[cfg(test)]
mod tests {
    use super::*;

    /// The list of each check on its own is that of all lists.
    #[test]
    fn checks_one_by_one() {
        let code = Code::new(1870, &[&[3, 3, 900], &[], &[65_535, 17, 391]]);
        for c in 0..code.checks() {
            let alone = archive::ldpc_check(code.lent(), c as u32).unwrap();
            assert_eq!(alone, code.check(c), "check {c}");
        }
        let past = archive::ldpc_check(code.lent(), code.checks() as u32);
        assert_eq!(past, Err(Refusal::Size));
    }
}
