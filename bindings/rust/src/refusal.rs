//! Why a call is refused.

use crate::ffi::Answer;
use core::fmt;

/// A refused call: why, and where in the text, if the text is at fault.
#[derive(Clone, Copy, Debug, PartialEq, Eq, Hash)]
pub struct Refusal {
    /// The refusal's number in the list.
    pub number: u32,
    /// The offset of the byte at fault; 0 where the text is not at fault.
    pub offset: usize,
}

macro_rules! reasons {
    ($($name:ident = $number:literal, $sentence:literal;)*) => {
        /// The refusals by name.
        #[derive(Clone, Copy, Debug, PartialEq, Eq, Hash)]
        #[non_exhaustive]
        pub enum Reason {
            $(#[doc = $sentence] $name = $number,)*
        }

        impl Reason {
            /// The reason with a number of the list, if it is one.
            pub fn of(number: u32) -> Option<Reason> {
                match number {
                    $($number => Some(Reason::$name),)*
                    _ => None,
                }
            }

            /// The reason in a sentence.
            pub fn sentence(self) -> &'static str {
                match self {
                    $(Reason::$name => $sentence,)*
                }
            }
        }
    };
}

reasons! {
    ScratchShort = 1, "scratch has too few words";
    TextLong = 2, "the text is over its limit";
    NoToken = 3, "a byte opens no token, or a name is too long";
    NoScript = 4, "the tokens so far continue to no script";
    LimitPassed = 5, "another limit of the notation is passed";
    NameTwice = 6, "a type, a process, a label of one list or a name of one signature comes twice";
    NotDefined = 7, "a type or process is not defined";
    BareName = 8, "a type is defined as a bare name";
    ExecWrong = 9, "an exec process uses a channel, or the outside could not use what it provides";
    NotHeld = 10, "a term acts on a channel that is not held";
    TypeWrong = 11, "side, type, sent label, list length or a repeated name breaks the rule";
    BranchesWrong = 12, "a branch's label is none of the type's";
    LeftOver = 13, "a channel is left over, or mentioned in both or neither half where that is barred";
    NoLink = 14, "never given: a raise needs no link in the text";
    HeldFull = 15, "a 17th channel is held, or a new name is already held";
    RunShort = 16, "the run has too few words";
    NoLine = 17, "the exec number has no line";
    NoRun = 18, "the run's words are no configuration of this text";
    NoProcess = 19, "the place holds no process";
    NotOpen = 20, "the step is not open";
    Lacking = 21, "the step lacks a free place or number";
    Halted = 22, "the run has halted";
}

impl Refusal {
    /// The refusal that an answer tells, if it tells one.
    pub(crate) fn told(answer: &Answer) -> Result<(), Refusal> {
        match answer[0] {
            0 => Ok(()),
            number => Err(Refusal {
                number,
                offset: answer[1] as usize,
            }),
        }
    }

    /// Its name; `None` for a number that this version does not know.
    pub fn reason(&self) -> Option<Reason> {
        Reason::of(self.number)
    }

    /// It in a sentence.
    pub fn sentence(&self) -> &'static str {
        self.reason().map_or("no refusal has this number", Reason::sentence)
    }

    /// Whether the text is at fault, so that the offset says where.
    pub fn is_of_text(&self) -> bool {
        (2..=15).contains(&self.number)
    }
}

/// As in a log of calls: `refused 4 at 12`, or `refused 19`.
impl fmt::Display for Refusal {
    fn fmt(&self, f: &mut fmt::Formatter<'_>) -> fmt::Result {
        write!(f, "refused {}", self.number)?;
        if self.is_of_text() {
            write!(f, " at {}", self.offset)?;
        }
        Ok(())
    }
}

impl core::error::Error for Refusal {}
