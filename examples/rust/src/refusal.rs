//! The refusals, each with its number and what it gives.

use std::fmt;

/// Why a call was refused. A place is counted in bytes from 0; a file's 4 to 7 give the position of
/// its first offending byte or slot.
#[derive(Clone, Copy, Debug, PartialEq, Eq)]
pub enum Refusal {
    /// 1: a file, a source text, a string to expand or a text among its arguments has a wrong length.
    Length,
    /// 2: a file does not begin with the magic number 282.
    Magic,
    /// 3: a size in a file's header is out of range, the edition is too large, or states are too few.
    Header,
    /// 4: the names hold a NUL, lack the closing one, or have a wrong length. `at` is 0 for the names
    /// to write.
    Names { at: usize },
    /// 5: a boolean byte is none of 0, 1 and 254, or the pad byte is not 0.
    Boolean { at: usize },
    /// 6: a number slot is out of range.
    Number { at: usize },
    /// 7: a string slot is no offset of a string in the table.
    String { at: usize },
    /// 8: there is too little room for so many bytes.
    Room { needed: usize },
    /// 9: the file to be written is longer than 4,096 bytes.
    Size,
    /// 10: the text is malformed.
    Malformed { at: usize },
    /// 11: a field's name is not in the edition, or of another kind.
    Unknown { at: usize },
    /// 13: past a limit.
    Limit { at: usize },
    /// 14: the string to expand is malformed.
    Expansion { at: usize },
    /// 15: an item takes a value from the empty stack.
    StackEmpty { at: usize },
    /// 16: an item puts a value on the full stack.
    StackFull { at: usize },
    /// 17: the place is beyond the edition.
    Place,
    /// 18: no description of the text has the name.
    NotFound { at: usize },
    /// 19: a chain of uses comes back to a description that is being worked on.
    Circular { at: usize },
    /// 20: the ninth use of a chain.
    NinthUse { at: usize },
    /// 21: an item takes a value of the other kind, a number or a text.
    Kind { at: usize },
}

impl Refusal {
    pub(crate) fn of(number: u8, given: usize) -> Refusal {
        match number {
            1 => Refusal::Length,
            2 => Refusal::Magic,
            3 => Refusal::Header,
            4 => Refusal::Names { at: given },
            5 => Refusal::Boolean { at: given },
            6 => Refusal::Number { at: given },
            7 => Refusal::String { at: given },
            8 => Refusal::Room { needed: given },
            9 => Refusal::Size,
            10 => Refusal::Malformed { at: given },
            11 => Refusal::Unknown { at: given },
            13 => Refusal::Limit { at: given },
            14 => Refusal::Expansion { at: given },
            15 => Refusal::StackEmpty { at: given },
            16 => Refusal::StackFull { at: given },
            17 => Refusal::Place,
            18 => Refusal::NotFound { at: given },
            19 => Refusal::Circular { at: given },
            20 => Refusal::NinthUse { at: given },
            21 => Refusal::Kind { at: given },
            _ => unreachable!("the library gives no refusal {number}"),
        }
    }

    /// The number under which the library refuses.
    pub fn number(self) -> u8 {
        match self {
            Refusal::Length => 1,
            Refusal::Magic => 2,
            Refusal::Header => 3,
            Refusal::Names { .. } => 4,
            Refusal::Boolean { .. } => 5,
            Refusal::Number { .. } => 6,
            Refusal::String { .. } => 7,
            Refusal::Room { .. } => 8,
            Refusal::Size => 9,
            Refusal::Malformed { .. } => 10,
            Refusal::Unknown { .. } => 11,
            Refusal::Limit { .. } => 13,
            Refusal::Expansion { .. } => 14,
            Refusal::StackEmpty { .. } => 15,
            Refusal::StackFull { .. } => 16,
            Refusal::Place => 17,
            Refusal::NotFound { .. } => 18,
            Refusal::Circular { .. } => 19,
            Refusal::NinthUse { .. } => 20,
            Refusal::Kind { .. } => 21,
        }
    }

    /// The place that is given with a file's refusals 4 to 7, and with 10 to 16 and 18 to 21.
    pub fn at(self) -> Option<usize> {
        match self {
            Refusal::Names { at: 0 } => None,
            Refusal::Names { at }
            | Refusal::Boolean { at }
            | Refusal::Number { at }
            | Refusal::String { at }
            | Refusal::Malformed { at }
            | Refusal::Unknown { at }
            | Refusal::Limit { at }
            | Refusal::Expansion { at }
            | Refusal::StackEmpty { at }
            | Refusal::StackFull { at }
            | Refusal::NotFound { at }
            | Refusal::Circular { at }
            | Refusal::NinthUse { at }
            | Refusal::Kind { at } => Some(at),
            _ => None,
        }
    }
}

impl fmt::Display for Refusal {
    fn fmt(&self, f: &mut fmt::Formatter<'_>) -> fmt::Result {
        let sentence = match self {
            Refusal::Length => "wrong length",
            Refusal::Magic => "the file does not begin with 282",
            Refusal::Header => {
                "a size in the header is out of range, the edition is too large, or states are too few"
            }
            Refusal::Names { .. } => "wrong names",
            Refusal::Boolean { .. } => "wrong boolean or pad byte",
            Refusal::Number { .. } => "wrong number slot",
            Refusal::String { .. } => "wrong string slot",
            Refusal::Room { .. } => "too little room",
            Refusal::Size => "the file would be longer than 4,096 bytes",
            Refusal::Malformed { .. } => "malformed text",
            Refusal::Unknown { .. } => "unknown capability, or one of another kind",
            Refusal::Limit { .. } => "past a limit",
            Refusal::Expansion { .. } => "malformed string to expand",
            Refusal::StackEmpty { .. } => "an item takes a value from the empty stack",
            Refusal::StackFull { .. } => "an item puts a value on the full stack",
            Refusal::Place => "the place is beyond the edition",
            Refusal::NotFound { .. } => "no description has the name",
            Refusal::Circular { .. } => "a chain of uses comes back",
            Refusal::NinthUse { .. } => "the ninth use of a chain",
            Refusal::Kind { .. } => "an item takes a value of the other kind, a number or a text",
        };
        write!(f, "{sentence} (refusal {}", self.number())?;
        match (self, self.at()) {
            (_, Some(at)) => write!(f, ", byte {at})"),
            (Refusal::Room { needed }, _) => write!(f, ", {needed} bytes are needed)"),
            _ => write!(f, ")"),
        }
    }
}

impl std::error::Error for Refusal {}

/// Why a merge was refused, and which of its two files it was.
#[derive(Clone, Copy, Debug, PartialEq, Eq)]
pub enum MergeRefusal {
    /// The first file is refused: 1 to 7.
    First(Refusal),
    /// The first file is accepted, the second refused: 1 to 7.
    Second(Refusal),
    /// The edition is too large (3), or the merged file would be too long (9).
    Neither(Refusal),
}

impl MergeRefusal {
    pub(crate) fn of(which: u8, refusal: Refusal) -> MergeRefusal {
        match which {
            0 => MergeRefusal::Neither(refusal),
            1 => MergeRefusal::First(refusal),
            2 => MergeRefusal::Second(refusal),
            _ => unreachable!("merging has no file {which}"),
        }
    }
}

impl From<MergeRefusal> for Refusal {
    fn from(refused: MergeRefusal) -> Refusal {
        match refused {
            MergeRefusal::First(refusal)
            | MergeRefusal::Second(refusal)
            | MergeRefusal::Neither(refusal) => refusal,
        }
    }
}

impl fmt::Display for MergeRefusal {
    fn fmt(&self, f: &mut fmt::Formatter<'_>) -> fmt::Result {
        match self {
            MergeRefusal::First(refusal) => write!(f, "the first file: {refusal}"),
            MergeRefusal::Second(refusal) => write!(f, "the second file: {refusal}"),
            MergeRefusal::Neither(refusal) => refusal.fmt(f),
        }
    }
}

impl std::error::Error for MergeRefusal {}
