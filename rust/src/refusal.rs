//! Why a call was refused.

use std::error::Error;
use std::fmt;

macro_rules! refusals {
    ($($name:ident = $number:literal, $meaning:literal;)+) => {
        /// Why a call was refused: one number each, with its meaning. Where several apply, the first in the operation's order is given.
        ///
        /// ```
        /// use basilvault::Refusal;
        ///
        /// let refused = basilvault::read(&[0; 11]).unwrap_err();
        /// assert_eq!(refused, Refusal::Length);
        /// assert_eq!(refused.number(), 1);
        /// assert_eq!(Refusal::try_from(17u8), Ok(Refusal::Agreement));
        /// assert!(Refusal::try_from(9u8).is_err());
        /// assert_eq!(Refusal::Order.to_string(), "refused 8: records that do not ascend");
        /// ```
        #[derive(Clone, Copy, Debug, PartialEq, Eq, Hash, PartialOrd, Ord)]
        #[repr(u8)]
        pub enum Refusal {
            $(#[doc = $meaning] $name = $number,)+
        }

        impl Refusal {
            /// Every refusal, by ascending number.
            pub const ALL: &[Refusal] = &[$(Refusal::$name),+];

            /// What it means.
            #[must_use]
            pub const fn meaning(self) -> &'static str {
                match self {
                    $(Refusal::$name => $meaning,)+
                }
            }
        }

        impl TryFrom<u32> for Refusal {
            type Error = NoRefusal;

            fn try_from(number: u32) -> Result<Refusal, NoRefusal> {
                match number {
                    $($number => Ok(Refusal::$name),)+
                    _ => Err(NoRefusal(number)),
                }
            }
        }
    };
}

refusals! {
    Length = 1, "a file of under 12 bytes, or longer than the limits permit: over 22,596 bytes where none are given, over 22,644 at the largest";
    Version = 2, "a version other than 1 and 2";
    Distances = 3, "the first distance is not the length less 12, a distance rises, or a record section is not a whole number of records";
    Count = 4, "a count outside the limits in force";
    Byte = 5, "a symbol byte over 2, or a state byte over 3 in version 1, over 63 in version 2";
    NoInitial = 6, "no initial state";
    Record = 7, "a record with a state or symbol past the count, or a symbol of another kind";
    Order = 8, "records that do not ascend";
    ListShort = 10, "the clause list is longer than its buffer; for reduce, the list without transitivity";
    List = 11, "more variables than n(n-1)/2 for a state limit of n (276 where none is given, 780 at the largest), a clause past the end, a variable past the count or twice in a clause";
    NoAssignment = 12, "no assignment satisfies the clauses";
    Spent = 13, "the budget of guesses is spent; of `search` alone, since `reduce` then delivers the best map that it has tried";
    AnswerShort = 14, "fewer answer bytes than variables";
    MapLength = 15, "the map has not one byte a state";
    Numbering = 16, "class numbers that do not begin at 0 or skip one";
    Agreement = 17, "(i) joined states that differ in accepting or in their mark";
    Internals = 18, "(ii) an internal move that a joined state does not match";
    Calls = 19, "(iii) a call that a joined state does not match";
    Returns = 20, "(iv) a return that a joined state does not match over a joined stack state";
    OutputShort = 21, "the output is too short: for the table that is to be written, or of `records`, under a byte a record";
    MapShort = 22, "the map buffer has under one byte a state";
    ScriptSymbol = 30, "a script with a symbol past the count, anywhere";
    ScriptOpen = 31, "a script with a 65th open call before any return on the empty stack";
    Lines = 32, "use lines whose length is not a multiple of 5, or over 65,536 lines";
    LineState = 33, "a use line with a state past the count";
    Season = 34, "a season of no table or more than 8, or lengths that do not add up to the buffer";
    Load = 35, "a load whose state count, symbol counts added up, or density is outside its limits, or more states than permitted in two tables combined";
    LoadRecords = 36, "a load, or two tables combined, with more records of a kind than a file permits";
    Symbols = 37, "of two tables the symbols differ";
    Choice = 38, "the second of two tables has a choice: two initial states, or two records of one section that differ in their target alone";
    Limits = 39, "a limit of zero, or past its maximum";
    Neither = 40, "of two maps the check accepts neither";
}

impl Refusal {
    /// Its number.
    #[must_use]
    pub const fn number(self) -> u8 {
        self as u8
    }
}

impl fmt::Display for Refusal {
    fn fmt(&self, f: &mut fmt::Formatter<'_>) -> fmt::Result {
        write!(f, "refused {}: {}", self.number(), self.meaning())
    }
}

impl Error for Refusal {}

impl From<Refusal> for u8 {
    fn from(refusal: Refusal) -> u8 {
        refusal.number()
    }
}

impl From<Refusal> for u32 {
    fn from(refusal: Refusal) -> u32 {
        refusal.number().into()
    }
}

impl TryFrom<u8> for Refusal {
    type Error = NoRefusal;

    fn try_from(number: u8) -> Result<Refusal, NoRefusal> {
        u32::from(number).try_into()
    }
}

/// A number that no refusal has.
#[derive(Clone, Copy, Debug, PartialEq, Eq, Hash)]
pub struct NoRefusal(pub u32);

impl fmt::Display for NoRefusal {
    fn fmt(&self, f: &mut fmt::Formatter<'_>) -> fmt::Result {
        write!(f, "no refusal has the number {}", self.0)
    }
}

impl Error for NoRefusal {}
