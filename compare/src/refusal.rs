//! The refusals of all operations, with the paper's numbers.

#[derive(Clone, Copy, PartialEq, Eq, Debug)]
pub enum Refusal {
    /// k is not 1 to 5.
    Parameter = 1,
    /// A list has the wrong length.
    Length = 2,
    /// A symbol, a number of one, a message value or a mask of lines is out of
    /// range.
    Range = 3,
    /// No word of the code lies within the radius ("hopeless").
    Undecodable = 4,
    /// The book is too long, or too short for its contents.
    BookSize = 5,
    /// A tune number is out of range or does not rise.
    TuneNumbers = 6,
    /// A count is 0, or the bodies do not follow each other to the end.
    Layout = 7,
    /// No tune has the number.
    NoSuchTune = 8,
    /// No card has the number.
    NoSuchCard = 9,
    /// A bell, force or delay is out of range.
    StrikeField = 10,
    /// More lines are dead than the code can do without.
    DeadLines = 11,
    /// A width is 0, over 64, or over the count of cards.
    Width = 12,
    /// A card's bell is over the largest.
    NoSuchBell = 13,
}

impl Refusal {
    pub fn number(self) -> u32 {
        self as u32
    }
}
