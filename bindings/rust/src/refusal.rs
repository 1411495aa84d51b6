//! Why a call, a frame or a slot is refused.
use std::fmt;

macro_rules! refusals {
    ($($(#[$doc:meta])* $name:ident = $number:literal, $text:literal;)*) => {
        /// Why a call, a frame or a slot is refused.
        #[derive(Clone, Copy, Debug, PartialEq, Eq)]
        pub enum Refusal {
            /// A byte of the frame is needed and absent: the first such byte, counted from the frame's first.
            AbsentBytes { offset: usize },
            $($(#[$doc])* $name,)*
        }

        impl Refusal {
            /// By its number, with the offset that is told beside it; of 0, which says that nothing was refused, none. The library answers
            /// no other.
            pub(crate) fn of(number: u8, offset: usize) -> Option<Refusal> {
                match number {
                    0 => None,
                    2 => Some(Refusal::AbsentBytes { offset }),
                    $($number => Some(Refusal::$name),)*
                    _ => unreachable!("refusal {}", number),
                }
            }

            /// Its number.
            pub fn number(self) -> u8 {
                match self {
                    Refusal::AbsentBytes { .. } => 2,
                    $(Refusal::$name => $number,)*
                }
            }
        }

        impl fmt::Display for Refusal {
            fn fmt(&self, f: &mut fmt::Formatter) -> fmt::Result {
                match self {
                    Refusal::AbsentBytes { offset } => write!(f, "the bytes end within the frame: byte {} of it is absent", offset),
                    $(Refusal::$name => f.write_str($text),)*
                }
            }
        }
    };
}

refusals! {
    /// Less memory lent than the call needs.
    UnfitMemory = 1, "unfit memory";
    NoSync = 3, "no synchronisation";
    ReservedVersion = 4, "reserved version";
    ReservedLayer = 5, "reserved layer";
    OtherLayer = 6, "Layer I or II";
    FreeBitrate = 7, "free bitrate";
    ForbiddenBitrate = 8, "forbidden bitrate";
    ReservedEmphasis = 9, "reserved emphasis";
    TooManyPairs = 10, "big_values above 288";
    ForbiddenBlock = 11, "window switching with block type 0";
    MixedBlock = 12, "mixed short block at 8 kHz";
    /// The frame reaches further back than the reservoir; its main data was added for the frames after it.
    ShortReservoir = 13, "the frame reaches too far back";
    /// Reorder: the frame has no slot of that number.
    MadeUpRecord = 14, "no such slot";
    ReservedRate = 15, "reserved sampling rate";
    WrongCrc = 16, "the CRC does not fit";
    MissingBits = 20, "the slot's bits end beyond the main data";
    FactorOverrun = 21, "scale factors longer than the slot";
    LostShare = 22, "scale factors shared with a slot that was refused";
    PairOverrun = 24, "a pair does not end within the slot";
    /// Cannot occur: every code is complete.
    NoCodeword = 25, "no codeword";
}

impl std::error::Error for Refusal {}
