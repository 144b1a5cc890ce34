//! What a queue is at.

use crate::Reason;
use std::fmt;

/// The words of a status.
pub(crate) const WORDS: usize = 10;

/// What a device's queue is at. Without an enabled queue this is [`Status::default`]: nothing, and zeros.
///
/// Displayed it is a line for a log, such as "queue broken: reason 6, buffer not in memory, at descriptor 17, the 3rd of
/// its chain", or "queue in order".
#[derive(Clone, Copy, Debug, Default, PartialEq, Eq)]
pub struct Status {
    /// Whether a queue is enabled; a broken one is.
    pub enabled: bool,
    /// Why the queue is broken; `None` if it is in order.
    pub broken: Option<Reason>,
    /// The counter of requests taken, modulo 2^16.
    pub taken: u16,
    /// The counter of requests answered, modulo 2^16: what used idx holds. To hand the queue over, give it to
    /// [`Device::enable_at`](crate::Device::enable_at).
    pub answered: u16,
    /// What the next step does; `None` if no queue is enabled or it is broken.
    pub next: Option<NextStep>,
    /// Head of the request at hand, or of the one that broke the queue; 0 if there is none.
    pub head: u64,
    /// Descriptors fetched for that request, a refused one included.
    pub descriptors: u64,
    /// Header and payload bytes fetched for that request.
    pub bytes: u64,
    /// The number, in its table, of the descriptor at which the chain was refused: for a bad next the descriptor that has
    /// it, for no writable buffer the chain's last one. `None` if the queue is in order, or broke at idx or at a head.
    pub broken_at: Option<u16>,
    /// How many descriptors the last chain had that was complete; 0 before the first. One without a writable buffer is
    /// complete too; a chain that is refused for another reason leaves the number as it was.
    pub last_chain: u64,
}

impl Status {
    pub(crate) fn of(words: &[u64; WORDS]) -> Status {
        let [enabled, reason, taken, answered, next, head, descriptors, bytes, broken_at, last_chain] = *words;
        Status {
            enabled: enabled != 0,
            broken: if reason == 0 { None } else { Some(Reason::of(reason)) },
            taken: taken as u16, // a counter modulo 2^16 by the interface
            answered: answered as u16,
            next: NextStep::of(next),
            head,
            descriptors,
            bytes,
            broken_at: if reason == 0 { None } else { u16::try_from(broken_at).ok() }, // 65,536: at no descriptor
            last_chain,
        }
    }
}

impl fmt::Display for Status {
    fn fmt(&self, f: &mut fmt::Formatter<'_>) -> fmt::Result {
        let reason = match self.broken {
            None if self.enabled => return f.write_str("queue in order"),
            None => return f.write_str("queue not enabled"),
            Some(reason) => reason,
        };
        write!(f, "queue broken: reason {}, {}", reason.code(), reason.words())?;
        match self.broken_at {
            Some(at) => {
                write!(f, ", at descriptor {at}, the {}{} of its chain", self.descriptors, ending(self.descriptors))
            }
            None if reason == Reason::Index => f.write_str(", in the available ring"),
            None => Ok(()),
        }
    }
}

/// The ending of an ordinal: 1st, 2nd, 3rd, 4th, 11th, 12th, 13th, 21st, 111th.
fn ending(n: u64) -> &'static str {
    match (n / 10 % 10, n % 10) {
        (1, _) => "th",
        (_, 1) => "st",
        (_, 2) => "nd",
        (_, 3) => "rd",
        _ => "th",
    }
}

/// The steps of a request. Each reads at most one contiguous range of guest memory.
#[derive(Clone, Copy, Debug, PartialEq, Eq)]
pub enum NextStep {
    /// S1: reads available idx. A read barrier belongs after it.
    Poll,
    /// S2: reads one available entry.
    Head,
    /// S3: reads one descriptor, and tests it.
    Descriptor,
    /// S4: reads header bytes of one buffer; with the last of them the request is decided.
    Header,
    /// S5: reads the payload bytes of one buffer; with the last of them the disk is written, all at once.
    Payload,
    /// S6: writes data, then the status, then the used entry.
    Answer,
    /// S7: writes used idx. A write barrier belongs before it.
    Publish,
}

impl NextStep {
    fn of(word: u64) -> Option<NextStep> {
        match word {
            1 => Some(NextStep::Poll),
            2 => Some(NextStep::Head),
            3 => Some(NextStep::Descriptor),
            4 => Some(NextStep::Header),
            5 => Some(NextStep::Payload),
            6 => Some(NextStep::Answer),
            7 => Some(NextStep::Publish),
            _ => None,
        }
    }
}
