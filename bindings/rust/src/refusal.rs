//! The numbers of refusal.

use std::error::Error;
use std::fmt;

/// Why a call was refused: the number and the sentence of the archive's answer. A call that is refused has changed
/// nothing; of several reasons it is the one that the C header lists first for that call.
///
/// ```
/// use raxdov::{Refusal, ldpc::Code};
///
/// let refused = Code::try_new(375, &[]).unwrap_err();
/// assert_eq!(refused, Refusal::N);
/// assert_eq!(refused.number(), 2);
/// assert_eq!(refused.to_string(), "refused by 2: n is 0, not a multiple of 374, or above 44,880");
/// ```
#[derive(Debug, Clone, Copy, PartialEq, Eq, PartialOrd, Ord, Hash)]
#[repr(u32)]
pub enum Refusal {
    /// The report program's input is not of its form. No call of this crate gives it.
    Form = 1,
    /// n is 0, not a multiple of 374, or above 44,880.
    N = 2,
    /// 374 times the row count is n or more.
    Rows = 3,
    /// A row has more than 128 addresses.
    RowLength = 4,
    /// Row lengths don't add up to the address list's length. No call of this crate gives it, as a table has its rows.
    Addresses = 5,
    /// More than 126 addresses are equal modulo q.
    EqualAddresses = 6,
    /// Lanes are not 1 to 64.
    Lanes = 7,
    /// The soft values are not a whole number of n-long words, or make over 4,096 words.
    Words = 8,
    /// The iteration limit is above 65,535.
    IterationLimit = 9,
    /// The schedule is layered with step 0.
    Step = 10,
    /// A BCH word is not 193 to 65,535 bits, a BCH message is over 65,343, or a run's BCH part passes the end of its
    /// word.
    Bch = 11,
    /// Information is not k long, a hard word not n, or a check number is P or more.
    Size = 12,
    /// A lent output or work slice is too short.
    TooShort = 13,
    /// A window's width is 0 or above 4,096.
    Width = 14,
    /// The soft words to combine are not 1 to 8, their lengths are not equal, or don't add up to the number of soft
    /// values.
    Lengths = 15,
}

const ALL: [Refusal; 15] = [
    Refusal::Form,
    Refusal::N,
    Refusal::Rows,
    Refusal::RowLength,
    Refusal::Addresses,
    Refusal::EqualAddresses,
    Refusal::Lanes,
    Refusal::Words,
    Refusal::IterationLimit,
    Refusal::Step,
    Refusal::Bch,
    Refusal::Size,
    Refusal::TooShort,
    Refusal::Width,
    Refusal::Lengths,
];

impl Refusal {
    /// The number, 1 to 15.
    ///
    /// ```
    /// assert_eq!(raxdov::Refusal::TooShort.number(), 13);
    /// ```
    pub const fn number(self) -> u32 {
        self as u32
    }

    /// The refusal of a number; none for 0 and above 15.
    ///
    /// ```
    /// use raxdov::Refusal;
    ///
    /// assert_eq!(Refusal::from_number(7), Some(Refusal::Lanes));
    /// assert_eq!(Refusal::from_number(0), None);
    /// ```
    pub fn from_number(number: u32) -> Option<Self> {
        ALL.into_iter().find(|r| r.number() == number)
    }

    /// What it says, in a sentence without its stop.
    ///
    /// ```
    /// assert_eq!(raxdov::Refusal::Lanes.sentence(), "lanes are not 1 to 64");
    /// ```
    pub const fn sentence(self) -> &'static str {
        match self {
            Self::Form => "the report program's input is not of its form",
            Self::N => "n is 0, not a multiple of 374, or above 44,880",
            Self::Rows => "374 times the row count is n or more",
            Self::RowLength => "a row has more than 128 addresses",
            Self::Addresses => "row lengths don't add up to the address list's length",
            Self::EqualAddresses => "more than 126 addresses are equal modulo q",
            Self::Lanes => "lanes are not 1 to 64",
            Self::Words => {
                "the soft values are not a whole number of n-long words, or make over 4,096 words"
            }
            Self::IterationLimit => "the iteration limit is above 65,535",
            Self::Step => "the schedule is layered with step 0",
            Self::Bch => {
                "a BCH word is not 193 to 65,535 bits, a BCH message is over 65,343, or a run's BCH part passes the end of \
                 its word"
            }
            Self::Size => {
                "information is not k long, a hard word not n, or a check number is P or more"
            }
            Self::TooShort => "a lent output or work slice is too short",
            Self::Width => "a window's width is 0 or above 4,096",
            Self::Lengths => {
                "the soft words to combine are not 1 to 8, their lengths are not equal, or don't add up to the number of \
                 soft values"
            }
        }
    }
}

impl fmt::Display for Refusal {
    fn fmt(&self, f: &mut fmt::Formatter<'_>) -> fmt::Result {
        write!(f, "refused by {}: {}", self.number(), self.sentence())
    }
}

impl Error for Refusal {}
