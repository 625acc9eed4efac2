//! The day's verdict of the Messaging Efficiency Program, for a panel written in Rust.
//!
//! The verdict itself is proved Rattle, linked as a C function. This crate only gives its number a name.

use std::fmt;

extern "C" {
    fn mep_verdict(raw: u64, score: u64, lots: u64, benchmark: u64) -> u64;
}

/// What the Program says of one firm, one product group and one day.
#[derive(Clone, Copy, Debug, PartialEq, Eq, Hash)]
pub enum Verdict {
    /// Code 0: at most 20,000 messages, so the day is not judged, and has no tier.
    NotJudged,
    /// Codes 3, 2 and 1: the score is within the benchmark times the tier's factor times the lots.
    Pass { factor: u8 },
    /// Code 4: a failed day that the month, an automatic waiver or a grant may still excuse.
    Ordinary { factor: u8 },
    /// Code 5: above six times the bound, so billed unless a grant names it.
    Severe { factor: u8 },
    /// Number 24: a total above 10,000,000,000, or a benchmark outside 1 to 100,000.
    Refused,
    /// A number that the papers do not give: the linked archive has other rules than this crate
    /// knows. It is kept to be shown, and is never taken for a pass.
    Unknown(u64),
}

impl From<u64> for Verdict {
    /// The meaning of `mep_verdict`'s number, which is ten times the code, plus the tier's factor, or 24.
    fn from(number: u64) -> Verdict {
        let factor = (number % 10) as u8;
        match number {
            0 => Verdict::NotJudged,
            11 | 22 | 33 => Verdict::Pass { factor },
            41..=43 => Verdict::Ordinary { factor },
            51..=53 => Verdict::Severe { factor },
            24 => Verdict::Refused,
            other => Verdict::Unknown(other),
        }
    }
}

impl fmt::Display for Verdict {
    fn fmt(&self, f: &mut fmt::Formatter<'_>) -> fmt::Result {
        match self {
            Verdict::NotJudged => f.write_str("at most 20,000 messages"),
            Verdict::Pass { factor } => write!(f, "pass, tier factor {factor}"),
            Verdict::Ordinary { factor } => write!(f, "ordinary, tier factor {factor}"),
            Verdict::Severe { factor } => write!(f, "severe, tier factor {factor}"),
            Verdict::Refused => f.write_str("refused 24"),
            Verdict::Unknown(number) => write!(f, "unknown answer {number}"),
        }
    }
}

/// The verdict on a day's raw count, score and lots under a benchmark in hundredths. Any four numbers may be given.
pub fn verdict(raw: u64, score: u64, lots: u64, benchmark: u64) -> Verdict {
    // Safe: the function takes plain numbers, is proved to answer for all of them, and reads no memory of ours.
    unsafe { mep_verdict(raw, score, lots, benchmark) }.into()
}
