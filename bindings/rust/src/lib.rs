//! A virtio block device (split queue, VIRTIO 1.2) whose guests are hostile: the safe binding of `libhostiledisk.a`.
//!
//! A [`Device`] is one queue on one disk. The host registers guest memory, a disk and a queue, then calls
//! [`Device::step`] as often as it likes; a step never waits, and never loops on the guest's say-so. Whatever the guest
//! does to its memory, a step stays inside registered memory and inside this disk's range.
//!
//! ```no_run
//! use hostiledisk::{identity, Device, Disk, Queue, Region, Step};
//!
//! # fn main() -> Result<(), Box<dyn std::error::Error>> {
//! let mut memory = vec![0; 65_536]; // the guest's
//! let mut backing = vec![0; 64 * hostiledisk::SECTOR_BYTES];
//! let mut device = Device::new();
//! device.memory(&[Region { guest: 0x8000_0000, len: 65_536, offset: 0 }], memory.len())?;
//! let id = identity("SCRATCH-0007").ok_or("an identity of more than 20 bytes")?;
//! device.disk(&Disk { start: 0, sectors: 64, read_only: false, id }, backing.len())?;
//! device.enable(&Queue { size: 8, desc: 0x8000_1000, avail: 0x8000_2000, used: 0x8000_3000 })?;
//! for _ in 0..64 {
//!     match device.step(&mut memory, &mut backing) {
//!         Step::Idle => break,     // wait for the guest's notification
//!         Step::WentOn => {}
//!         Step::Answered => {}     // notify the guest
//!         Step::Broken(_) => return Err(device.status().to_string().into()), // why and where; until device.reset()
//!         Step::Refused => return Err("a slice is shorter than set-up was told".into()),
//!     }
//! }
//! # Ok(())
//! # }
//! ```
//!
//! Memory that a running guest shares is not a `&mut [u8]` in Rust's terms, since someone else writes to it: use
//! [`Device::step_raw`] there, with the barriers that it speaks of.
//!
//! The archive is found by Cargo through the environment variable `HD_ARCHIVE_DIR`, and by a plain `rustc` with
//! `-L native=DIR`. It is compiled for x86-64.

#![deny(missing_docs)]
#![deny(unsafe_op_in_unsafe_fn)]

mod answers;
mod device;
mod setting;
mod status;
mod sys;

pub use answers::{DiskError, EnableError, MemoryError, Reason, Step};
pub use device::Device;
pub use setting::{identity, Disk, Queue, Region};
pub use status::{NextStep, Status};

/// Bytes of a sector.
pub const SECTOR_BYTES: usize = 512;
/// Bytes of a disk's identity.
pub const ID_BYTES: usize = 20;
/// The largest number of regions.
pub const REGIONS_MAX: usize = 32;
/// The largest queue size.
pub const QUEUE_SIZE_MAX: u64 = 1024;
/// The largest disk, in sectors.
pub const SECTORS_MAX: u64 = 1 << 32;
/// Data bytes of the largest read or write; a larger one gets status 1 (I/O error).
pub const REQUEST_BYTES_MAX: usize = 1 << 20;
