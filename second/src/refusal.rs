//! The numbers we refuse by. The names are used nowhere but in this program; the numbers are the paper's.

#[derive(Clone, Copy, Debug, PartialEq, Eq)]
pub struct Refusal {
    pub number: u32,
    /// The paper's column "With it": a position, a step, a relation or 0.
    pub with: u32,
}

pub const ENDS_INSIDE: u32 = 1;
pub const WRONG_MARK: u32 = 2;
pub const WRONG_VERSION: u32 = 3;
pub const BEYOND_LIMIT: u32 = 4;
pub const TWO_DOMAINS: u32 = 5;
pub const WITH_ITSELF: u32 = 6;
pub const LEFT_OVER: u32 = 7;
pub const NOT_LEGAL: u32 = 8;
pub const NO_KEPT_COLUMN: u32 = 9;
pub const WRONG_SHAPE: u32 = 10;
pub const TOO_SHORT: u32 = 11;
pub const WAITING: u32 = 12;
pub const OTHER_RUN: u32 = 13;
pub const NOT_OURS: u32 = 14;
pub const NOT_SOUND: u32 = 15;
pub const ALREADY: u32 = 16;
pub const EARLIER_MISSING: u32 = 17;

pub const LAST_NUMBER: usize = 17;

pub fn refuse<T>(number: u32, with: u32) -> Result<T, Refusal> {
    Err(Refusal { number, with })
}

/// Refuses unless the condition holds, so that checks read as a list in the paper's order.
pub fn demand(condition: bool, number: u32, with: u32) -> Result<(), Refusal> {
    if condition {
        Ok(())
    } else {
        refuse(number, with)
    }
}
