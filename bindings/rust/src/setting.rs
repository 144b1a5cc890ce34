//! What a host registers: regions of guest memory, a disk, a queue.

use crate::ID_BYTES;

/// A region of guest memory: the guest addresses from `guest` up to `guest + len` are the bytes of the memory slice from
/// `offset` up to `offset + len`.
///
/// A buffer must lie inside one region: merge adjoining regions before registering them. So that a driver never sees
/// half of a ring's idx, let the slice begin at a page, and `guest` and `offset` be equal modulo 16.
#[derive(Clone, Copy, Debug, PartialEq, Eq)]
pub struct Region {
    /// The first guest address.
    pub guest: u64,
    /// The number of bytes.
    pub len: u64,
    /// The first byte's place in the memory slice.
    pub offset: u64,
}

/// A disk: the bytes of the backing slice from `start` up to `start + 512 * sectors`. No other byte of the backing slice is
/// ever changed, or shown to the guest.
#[derive(Clone, Copy, Debug, PartialEq, Eq)]
pub struct Disk {
    /// The first byte's place in the backing slice.
    pub start: u64,
    /// The capacity in sectors of 512 bytes, 1 to 2^32.
    pub sectors: u64,
    /// Whether writes are refused (status 1).
    pub read_only: bool,
    /// What GET_ID answers; see [`identity`].
    pub id: [u8; ID_BYTES],
}

/// A queue: its size, a power of two from 1 to 1,024, and the guest addresses of its three areas.
#[derive(Clone, Copy, Debug, PartialEq, Eq)]
pub struct Queue {
    /// The number of descriptors, and of entries of each ring.
    pub size: u64,
    /// The descriptor area's guest address, a multiple of 16.
    pub desc: u64,
    /// The available ring's guest address, a multiple of 2.
    pub avail: u64,
    /// The used ring's guest address, a multiple of 4.
    pub used: u64,
}

/// The text as an identity, filled up with zeros; `None` if it has more than 20 bytes.
pub fn identity(text: &str) -> Option<[u8; ID_BYTES]> {
    let mut id = [0; ID_BYTES];
    id.get_mut(..text.len())?.copy_from_slice(text.as_bytes());
    Some(id)
}
