//! The library's answers as enums.

use std::fmt;

/// What one step did.
#[derive(Clone, Copy, Debug, PartialEq, Eq)]
#[must_use]
pub enum Step {
    /// Nothing to do: the driver has made nothing available. Wait for its notification.
    Idle,
    /// A part of a request was done; step again.
    WentOn,
    /// A request was answered just now, and used idx is published. Notify the guest, and step again.
    Answered,
    /// The driver has left the rules, in this step or before. Further steps say the same and touch nothing, until
    /// [`Device::reset`](crate::Device::reset).
    Broken(Reason),
    /// Nothing was touched: no queue is enabled, or a slice is shorter than set-up was told. The host's mistake.
    Refused,
}

/// An enum of codes, each with the words that say what it means: in its documentation, and as it is displayed. What
/// stands in brackets is for the documentation alone.
macro_rules! codes {
    ($(#[$about:meta])+ $name:ident, $before:literal: $($code:literal $case:ident $text:literal $(($more:literal))?,)+) => {
        $(#[$about])+
        #[derive(Clone, Copy, Debug, PartialEq, Eq)]
        #[non_exhaustive]
        pub enum $name {
            $(#[doc = concat!(stringify!($code), ": ", $text, $(": ", $more,)? ".")] $case,)+
            /// A code that version 1 doesn't have here: the archive isn't the one that this crate was written for.
            Other(u64),
        }

        impl $name {
            pub(crate) fn of(code: u64) -> $name {
                match code {
                    $($code => $name::$case,)+
                    other => $name::Other(other),
                }
            }

            /// The library's code.
            pub fn code(&self) -> u64 {
                match self {
                    $($name::$case => $code,)+
                    $name::Other(code) => *code,
                }
            }

            /// What it means, in a few words.
            pub fn words(&self) -> &'static str {
                match self {
                    $($name::$case => $text,)+
                    $name::Other(_) => "unknown code",
                }
            }
        }

        impl fmt::Display for $name {
            fn fmt(&self, f: &mut fmt::Formatter<'_>) -> fmt::Result {
                match self {
                    $($name::$case => f.write_str(concat!($before, ": ", $text, " (", stringify!($code), ")")),)+
                    $name::Other(code) => write!(f, concat!($before, ": unknown code {}"), code),
                }
            }
        }

        impl std::error::Error for $name {}
    };
}

codes! {
    /// Why a queue is broken, in the words of `include/hostiledisk_text.h`. For the request that broke it nothing was
    /// written to guest memory or disk. [`Device::status`](crate::Device::status) says where.
    Reason, "queue broken":
    1 Idx "available idx too far ahead" ("by more entries than the ring has"),
    2 Index "index past the table" ("a head, or a descriptor's next, is the queue size or more"),
    3 ChainLong "chain longer than the queue" ("perhaps one that bites its tail"),
    4 Flags "flag not negotiated" ("other than NEXT and WRITE, perhaps INDIRECT"),
    5 Empty "buffer of length 0",
    6 Memory "buffer not in memory" ("not wholly inside one region"),
    7 ReadableLate "readable buffer after a writable one",
    8 NoStatus "no writable buffer" ("no place for a status"),
}

codes! {
    /// Why guest memory was not registered. What was set up before is unchanged.
    MemoryError, "memory refused":
    20 Count "not 1 to 32 regions",
    21 Empty "a region of length 0",
    22 LeavesSlice "a region leaves the memory slice",
    23 LeavesAddresses "a region's guest address + length is over 2^64 - 1",
    24 Overlap "a region's guest addresses overlap an earlier one's",
}

codes! {
    /// Why a disk was not registered. What was set up before is unchanged.
    DiskError, "disk refused":
    29 Sectors "not 1 to 2^32 sectors",
    30 LeavesBacking "the disk leaves the backing slice",
    41 Order "no memory is registered, or a queue is enabled (a broken one is)",
}

codes! {
    /// Why a queue was not enabled. What was set up before is unchanged.
    EnableError, "queue refused":
    25 Size "the size is not a power of two from 1 to 1,024",
    26 Alignment "descriptors not at a multiple of 16, the available ring of 2, or the used ring of 4",
    27 Memory "an area isn't wholly inside one region",
    28 Overlap "the used ring overlaps the available ring or the descriptors",
    41 Order "memory or disk is missing, or a queue is enabled already (a broken one is)",
}

/// The answer of a set-up call: 0 is done, any other code a refusal.
pub(crate) fn done<E>(code: u64, refusal: fn(u64) -> E) -> Result<(), E> {
    match code {
        0 => Ok(()),
        code => Err(refusal(code)),
    }
}
