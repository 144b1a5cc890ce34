//! The block device, 03: the disk, the form of a request, what each request does, the reported length.

use crate::regions::end;

pub const SECTOR: u64 = 512;
pub const MOST: u64 = 1_048_576;

pub const IN: u32 = 0;
pub const OUT: u32 = 1;
pub const FLUSH: u32 = 4;
pub const GET_ID: u32 = 8;

#[derive(Clone)]
pub struct Disk {
    pub start: u64,
    pub sectors: u64,
    pub read_only: bool,
    pub id: [u8; 20],
    pub backing_len: u64,
}

impl Disk {
    /// 03 §1.
    pub fn refused(start: u64, sectors: u64, backing_len: u64) -> Option<u64> {
        if sectors < 1 || sectors > 1 << 32 {
            return Some(29);
        }
        if end(start, SECTOR * sectors) > backing_len as u128 {
            return Some(30);
        }
        None
    }

    /// "n fits" of 03 §3.
    fn fits(&self, n: u64, sector: u64) -> bool {
        n % SECTOR == 0 && n <= MOST && sector <= self.sectors && n / SECTOR <= self.sectors - sector
    }

    /// The place in the backing slice of `n` bytes from a sector that fits.
    pub fn range(&self, sector: u64, n: usize) -> std::ops::Range<usize> {
        let from = (self.start + SECTOR * sector) as usize;
        from..from + n
    }
}

/// type u32, reserved u32 (ignored), sector u64, lowest byte first.
pub fn header(bytes: &[u8]) -> (u32, u64) {
    let kind = u32::from_le_bytes([bytes[0], bytes[1], bytes[2], bytes[3]]);
    let mut sector = [0; 8];
    sector.copy_from_slice(&bytes[8..16]);
    (kind, u64::from_le_bytes(sector))
}

/// The status of a request with a whole header, `r` readable and `w` writable bytes: the table of 03 §3.
pub fn status(disk: &Disk, kind: u32, sector: u64, r: u64, w: u64) -> u8 {
    let accepted = match kind {
        IN => r == 16 && disk.fits(w - 1, sector),
        OUT => w == 1 && disk.fits(r - 16, sector) && !disk.read_only,
        FLUSH => r == 16 && w == 1,
        GET_ID => r == 16 && w == 21,
        _ => return 2,
    };
    if accepted { 0 } else { 1 }
}

/// 03 §4: bytes written from the first writable byte on without a gap.
pub fn reported(status: u8, w: u64) -> u64 {
    if status == 0 {
        w
    } else if w == 1 {
        1
    } else {
        0
    }
}
