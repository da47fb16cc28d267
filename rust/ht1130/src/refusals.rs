//! Why a call is refused, in numbers and words.

use std::error::Error;
use std::fmt;

/// Why a call was refused: the lowest number that holds. In a script the order
/// is 1, then 6 or 7 of the first bad record, then 8, 3, 4, 9; in a text 2, 12,
/// 14, 13.
#[repr(u8)]
#[derive(Clone, Copy, PartialEq, Eq, PartialOrd, Ord, Hash, Debug)]
pub enum Refusal {
    /// The mask has not [`MASK`](crate::MASK) bytes.
    MaskLength = 1,
    /// The image, marks, report buffer, assembled mask or picture has not its
    /// length.
    BufferLength = 2,
    /// A nibble over 15, INT over 1, or an operand outside its range.
    Value = 3,
    /// A mask option outside its list.
    Option = 4,
    /// A machine field, an address or a level out of range, or halted with a fault.
    Machine = 5,
    /// A script too long, a record cut off or of a wrong length.
    RecordLength = 6,
    /// An unknown kind of event.
    Kind = 7,
    /// A script that does not start with power-on.
    NoPowerOn = 8,
    /// Less than [`REPORT`](crate::REPORT) bytes of report buffer for each record.
    ReportRoom = 9,
    /// The mask passes, so that there is no way to list.
    MaskPasses = 10,
    /// Less than three bytes of list for each pair of the way.
    ListLength = 11,
    /// A line that cannot be read, or a text over [`TEXT`](crate::TEXT) bytes.
    Syntax = 12,
    /// An ORG outside the mask, a byte past its end or written twice; after
    /// these, an operand outside its field or a branch that does not fit.
    Range = 13,
    /// A label missing, not above its ORG, or defined again.
    Label = 14,
    /// The mask fails, so that it has no bounds.
    MaskFails = 15,
    /// A picture that shows no reading, or a reading that does not fit the glass.
    Glass = 16,
}

impl Refusal {
    /// The number, 1 to 16.
    pub const fn number(self) -> u8 {
        self as u8
    }

    pub(crate) fn from_number(number: u8) -> Option<Refusal> {
        Some(match number {
            0 => return None,
            1 => Refusal::MaskLength,
            2 => Refusal::BufferLength,
            3 => Refusal::Value,
            4 => Refusal::Option,
            5 => Refusal::Machine,
            6 => Refusal::RecordLength,
            7 => Refusal::Kind,
            8 => Refusal::NoPowerOn,
            9 => Refusal::ReportRoom,
            10 => Refusal::MaskPasses,
            11 => Refusal::ListLength,
            12 => Refusal::Syntax,
            13 => Refusal::Range,
            14 => Refusal::Label,
            15 => Refusal::MaskFails,
            16 => Refusal::Glass,
            _ => unreachable!("the library has refusals 1 to 16"),
        })
    }
}

/// The words of each refusal and fault, a line each. The repository's commands have the same list.
const WORDS: &str = include_str!("refusals.txt");

/// The words of a number, `refused ` or `fault ` standing before it.
pub(crate) fn words(front: &str, number: u8) -> &'static str {
    WORDS
        .lines()
        .filter_map(|line| line.strip_prefix(front)?.split_once(": "))
        .find(|(of, _)| of.parse() == Ok(number))
        .map_or("", |(_, words)| words)
}

impl fmt::Display for Refusal {
    fn fmt(&self, f: &mut fmt::Formatter<'_>) -> fmt::Result {
        f.write_str(words("refused ", self.number()))
    }
}

impl Error for Refusal {}

/// Why a script was refused, and where.
#[derive(Clone, Copy, PartialEq, Eq, Hash, Debug)]
pub struct ScriptRefusal {
    /// The reason.
    pub refusal: Refusal,
    /// Where the record starts that is to blame; 0 where no one record is.
    pub offset: u16,
}

impl fmt::Display for ScriptRefusal {
    fn fmt(&self, f: &mut fmt::Formatter<'_>) -> fmt::Result {
        write!(f, "{} at byte {}", self.refusal, self.offset)
    }
}

impl Error for ScriptRefusal {
    fn source(&self) -> Option<&(dyn Error + 'static)> {
        Some(&self.refusal)
    }
}

/// Why a text was refused, and where.
#[derive(Clone, Copy, PartialEq, Eq, Hash, Debug)]
pub struct TextRefusal {
    /// The reason.
    pub refusal: Refusal,
    /// The first such line, counted from 1; 0 where no line is to blame.
    pub line: u32,
}

impl fmt::Display for TextRefusal {
    fn fmt(&self, f: &mut fmt::Formatter<'_>) -> fmt::Result {
        write!(f, "{} at line {}", self.refusal, self.line)
    }
}

impl Error for TextRefusal {
    fn source(&self) -> Option<&(dyn Error + 'static)> {
        Some(&self.refusal)
    }
}

/// Why a picture or a reading was refused, and where.
#[derive(Clone, Copy, PartialEq, Eq, Hash, Debug)]
pub struct GlassRefusal {
    /// The reason.
    pub refusal: Refusal,
    /// For [`Refusal::Glass`] of a picture the leftmost digit that no valid picture
    /// with the same digits before it has, 0 to 3; else 0.
    pub digit: u8,
}

impl fmt::Display for GlassRefusal {
    fn fmt(&self, f: &mut fmt::Formatter<'_>) -> fmt::Result {
        match self.refusal {
            Refusal::Glass => write!(
                f,
                "picture unreadable at digit {}, or reading that does not fit",
                self.digit
            ),
            other => other.fmt(f),
        }
    }
}

impl Error for GlassRefusal {
    fn source(&self) -> Option<&(dyn Error + 'static)> {
        Some(&self.refusal)
    }
}
