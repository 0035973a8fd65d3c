use std::fmt;

/// Document 01's refusals by their numbers; 13 is judged among 2 to 7, and 16 is only of the question with rules.
#[derive(Debug, Clone, Copy, PartialEq, Eq, PartialOrd, Ord, Hash)]
#[repr(u8)]
pub enum Refusal {
    SheetLength = 1,
    CutOff = 2,
    Byte = 3,
    Limit = 4,
    Text = 5,
    Position = 6,
    Comments = 7,
    Trailing = 8,
    Uncooked = 9,
    Buffer = 10,
    String = 13,
    Rules = 16,
}

impl Refusal {
    pub const ALL: [Refusal; 12] = [
        Refusal::SheetLength,
        Refusal::CutOff,
        Refusal::Byte,
        Refusal::Limit,
        Refusal::Text,
        Refusal::Position,
        Refusal::Comments,
        Refusal::Trailing,
        Refusal::Uncooked,
        Refusal::Buffer,
        Refusal::String,
        Refusal::Rules,
    ];

    /// The refusal of a number.
    ///
    /// ```
    /// use module_info::Refusal;
    ///
    /// assert!(Refusal::ALL.iter().all(|r| Refusal::from_number(r.number()) == Some(*r)));
    /// assert_eq!(Refusal::from_number(0), None);
    /// assert_eq!(Refusal::from_number(11), None);
    /// ```
    pub fn from_number(number: u8) -> Option<Refusal> {
        Refusal::ALL.into_iter().find(|r| r.number() == number)
    }

    /// Document 01's number.
    pub fn number(self) -> u8 {
        self as u8
    }

    /// Document 01's words.
    pub fn message(self) -> &'static str {
        match self {
            Refusal::SheetLength => "the sheet has more than 65,536 bytes",
            Refusal::CutOff => "a field is cut off, or a number is not shortest or too large",
            Refusal::Byte => "a byte or flag is outside its stated values, or a node has a tag its place doesn't allow",
            Refusal::Limit => "a count, length or depth is over its limit",
            Refusal::Text => "a text is not well-formed UTF-8, or WTF-8 where that is named",
            Refusal::Position => "a position is past the source or inside a character, or an end precedes its start",
            Refusal::Comments => {
                "a comment lacks its marks, is shorter than them, or starts before the last one's end; \
                 or a group has count 0, is out of order, reaches past the comments; or a comment is in none"
            }
            Refusal::Trailing => "bytes follow the root node",
            Refusal::Uncooked => {
                "the first argument of a walked call, an import of any phase or one whose expression is the Name `require`, \
                 is a template with an uncooked piece"
            }
            Refusal::Buffer => "the report is longer than the buffer",
            Refusal::String => "a String's span has fewer than two bytes, or does not begin and end with the same mark",
            Refusal::Rules => "the rules of the entries are longer than the second buffer",
        }
    }
}

impl fmt::Display for Refusal {
    fn fmt(&self, f: &mut fmt::Formatter) -> fmt::Result {
        write!(f, "refused {}: {}", self.number(), self.message())
    }
}

impl std::error::Error for Refusal {}
