//! Why a call is refused.

use std::error::Error;
use std::fmt;

/// Why a call is refused. A refused call leaves settings, planes and journal as they were.
///
/// Each call tests its conditions in a fixed order, and the first that applies is answered.
#[derive(Clone, Copy, Debug, PartialEq, Eq, Hash)]
#[non_exhaustive]
pub enum Refusal {
    /// 1: w or h outside 1 to 4,096.
    Size = 1,
    /// 2: a plane without its exact length.
    Plane = 2,
    /// 3: an entry of either table above 1,023.
    Table = 3,
    /// 4: share above 64.
    Share = 4,
    /// 5: a block of zero width or height, or reaching past an edge.
    Bounds = 5,
    /// 6: a view neither 0 nor 1.
    View = 6,
    /// 7: a full block that does not have width × height depths.
    Candidate = 7,
    /// 8: total plus change below 0 or above 1,046,529 × w × h. It never occurs in a [`Session`](crate::Session).
    Total = 8,
    /// 11: the words beyond the newest record of the journal cannot hold the new one, or its index passes 32 bits.
    JournalFull = 11,
    /// 12: the journal has no record.
    NothingToTakeBack = 12,
    /// 13: a journal of no words; and, but for OPEN and MOVE, one with a chain that does not fall to 0, or with a record past its
    /// end, of a block that is empty or reaches past an edge, of a view above 1 or with a depth above 255. It never occurs in a
    /// [`Session`](crate::Session).
    Journal = 13,
    /// 14: a line's point inside the block or outside it, or two points on one side.
    Line = 14,
    /// 15: a mask that does not have (width × height + 7) / 8 bytes.
    Mask = 15,
    /// 20: the widest gap outside 4 to 64, or the torn distance above 3.
    Gap = 20,
    /// 21: a texture or reference entry above 1,023.
    Sample = 21,
}

impl Refusal {
    /// Every refusal, in the order of its number.
    pub const ALL: [Refusal; 15] = [
        Refusal::Size,
        Refusal::Plane,
        Refusal::Table,
        Refusal::Share,
        Refusal::Bounds,
        Refusal::View,
        Refusal::Candidate,
        Refusal::Total,
        Refusal::JournalFull,
        Refusal::NothingToTakeBack,
        Refusal::Journal,
        Refusal::Line,
        Refusal::Mask,
        Refusal::Gap,
        Refusal::Sample,
    ];

    /// The refusal's number.
    pub fn number(self) -> u32 {
        self as u32
    }

    /// The refusal with this number, if there is one.
    pub fn from_number(number: u32) -> Option<Refusal> {
        Refusal::ALL.into_iter().find(|refusal| refusal.number() == number)
    }
}

impl fmt::Display for Refusal {
    fn fmt(&self, f: &mut fmt::Formatter<'_>) -> fmt::Result {
        let why = match self {
            Refusal::Size => "w or h is outside 1 to 4,096",
            Refusal::Plane => "a plane does not have its exact length",
            Refusal::Table => "a disparity is above 1,023",
            Refusal::Share => "the share is above 64",
            Refusal::Bounds => "the block is empty or reaches past an edge",
            Refusal::View => "the view is neither 0 nor 1",
            Refusal::Candidate => "the full block does not have width × height depths",
            Refusal::Total => "the total would leave its range",
            Refusal::JournalFull => "the journal has no room for the record",
            Refusal::NothingToTakeBack => "there is nothing to take back",
            Refusal::Journal => "the journal has no words or a record that cannot be right",
            Refusal::Line => "the line does not join two border points of the block that have no side in common",
            Refusal::Mask => "the mask does not have (width × height + 7) / 8 bytes",
            Refusal::Gap => "the widest gap is outside 4 to 64 or the torn distance above 3",
            Refusal::Sample => "a texture or reference sample is above 1,023",
        };
        write!(f, "refused ({}): {why}", self.number())
    }
}

impl Error for Refusal {}
