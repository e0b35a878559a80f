//! Why a call is refused.

use core::error::Error;
use core::fmt;

use crate::raw;

macro_rules! refusals {
    ($($name:ident = $number:ident,)+) => {
        /// Why a call is refused. A refusal leaves the scheduler and all lent
        /// memory as they were.
        ///
        /// ```
        /// use mtr::Refusal;
        ///
        /// assert_eq!(Refusal::NoRoom.number(), 5);
        /// assert_eq!(Refusal::from_number(5), Some(Refusal::NoRoom));
        /// assert_eq!(Refusal::from_number(0), None);
        /// assert_eq!(Refusal::Busy.to_string(), "12: a thread is running");
        /// ```
        #[derive(Clone, Copy, Debug, PartialEq, Eq, PartialOrd, Ord, Hash)]
        #[repr(u32)]
        pub enum Refusal {
            $(
                #[doc = concat!("[`raw::", stringify!($number), "`].")]
                $name = raw::$number,
            )+
        }

        impl Refusal {
            /// Every refusal, by number.
            pub const ALL: &'static [Refusal] = &[$(Refusal::$name,)+];

            /// The refusal of a number; none for 0 and unlisted ones.
            pub const fn from_number(number: u32) -> Option<Refusal> {
                match number {
                    $(raw::$number => Some(Refusal::$name),)+
                    _ => None,
                }
            }

        }
    };
}

refusals! {
    Settings = REFUSED_SETTINGS,
    NoGroup = REFUSED_NO_GROUP,
    GroupNumber = REFUSED_GROUP_NUMBER,
    Amount = REFUSED_AMOUNT,
    NoRoom = REFUSED_NO_ROOM,
    GroupInUse = REFUSED_GROUP_IN_USE,
    NoThread = REFUSED_NO_THREAD,
    AlreadyAdmitted = REFUSED_ALREADY_ADMITTED,
    ThreadRunning = REFUSED_THREAD_RUNNING,
    NotBlocked = REFUSED_NOT_BLOCKED,
    NothingRunning = REFUSED_NOTHING_RUNNING,
    Busy = REFUSED_BUSY,
    OverSlice = REFUSED_OVER_SLICE,
    Reason = REFUSED_REASON,
    MeterFull = REFUSED_METER_FULL,
    Unsound = REFUSED_UNSOUND,
    Length = REFUSED_LENGTH,
    Check = REFUSED_CHECK,
    Form = REFUSED_FORM,
    NotStarted = REFUSED_NOT_STARTED,
    TableRow = REFUSED_TABLE_ROW,
    TableCover = REFUSED_TABLE_COVER,
}

impl Refusal {
    /// The number that stands for the refusal in answers and journals.
    pub const fn number(self) -> u32 {
        self as u32
    }

    /// What the refusal says, without its number.
    pub const fn meaning(self) -> &'static str {
        raw::answer_text(self as u32)
    }
}

impl fmt::Display for Refusal {
    fn fmt(&self, f: &mut fmt::Formatter<'_>) -> fmt::Result {
        write!(f, "{}: {}", self.number(), self.meaning())
    }
}

impl Error for Refusal {}

/// What an answer says.
pub(crate) fn accepted(answer: u32) -> Result<(), Refusal> {
    match answer {
        raw::ACCEPTED => Ok(()),
        number => Err(refused(number)),
    }
}

/// What an answer other than 0 says. The library's contracts leave no number
/// but the listed ones; any other would be a state that can't be relied on.
pub(crate) fn refused(number: u32) -> Refusal {
    Refusal::from_number(number).unwrap_or(Refusal::Unsound)
}
