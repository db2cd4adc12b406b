//! The twin: document 01 and requests 1 to 3, 5 and 6 of document 02 once more in plain Rust, separate code, written from documents 01
//! and 02 by the same hand as the definitions and after them. The library is held against it.

pub mod believed;
pub mod cases;
pub mod edges;
#[cfg(feature = "library")]
pub mod library;
pub mod listing;
pub mod machine;
pub mod page;
pub mod program;
pub mod random;
pub mod runs;
pub mod sheet;
pub mod source;
pub mod spellings;
pub mod tool;
pub mod translation;
pub mod word;

/// "Each answer is number and place."
#[derive(Clone, Copy, PartialEq, Eq, Debug)]
pub struct Refusal {
    pub number: u32,
    pub place: usize,
}

pub fn refuse<T>(number: u32, place: usize) -> Result<T, Refusal> {
    Err(Refusal { number, place })
}

/// How a run ends.
#[derive(Clone, Copy, PartialEq, Eq, Debug)]
pub enum End {
    Halted,
    Strayed,
    Spent,
    Full,
}

impl End {
    pub fn name(self) -> &'static str {
        match self {
            End::Halted => "halted",
            End::Strayed => "strayed",
            End::Spent => "spent",
            End::Full => "full",
        }
    }
}

/// What comes of a call: its two counts, or how a run ended and its steps, or that a value is untidy, or a refusal.
#[derive(Clone, Copy, PartialEq, Eq, Debug)]
pub enum Answer {
    Done { high: u32, low: u32 },
    Ended(End, u32),
    Untidy,
    Refused(Refusal),
}
