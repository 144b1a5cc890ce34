//! Slices to lend, each between two pages that nobody may touch. A slice stands flush with the end of its pages or with
//! their beginning; the bytes on its other side, up to the page's border, are filled and looked at again later.

use std::ffi::c_void;
use std::marker::PhantomData;
use std::mem::size_of;

extern "C" {
    fn mmap(at: *mut c_void, len: usize, protection: i32, flags: i32, file: i32, offset: i64) -> *mut c_void;
    fn mprotect(at: *mut c_void, len: usize, protection: i32) -> i32;
    fn munmap(at: *mut c_void, len: usize) -> i32;
}

const PAGE: usize = 4096;
const NOBODY: i32 = 0;
const READ_WRITE: i32 = 3;
const PRIVATE_ANONYMOUS: i32 = 0x22;
const SLACK: u8 = 0xa5;

pub struct Lent<T> {
    pages: *mut u8,
    bytes: usize,
    at_end: bool,
    len: usize,
    kind: PhantomData<T>,
}

impl<T: Copy> Lent<T> {
    /// `len` elements of zeros.
    pub fn new(len: usize, at_end: bool) -> Lent<T> {
        let bytes = (len * size_of::<T>() + PAGE - 1) / PAGE * PAGE;
        let pages = unsafe {
            let all = mmap(std::ptr::null_mut(), bytes + 2 * PAGE, NOBODY, PRIVATE_ANONYMOUS, -1, 0);
            assert!(all as isize != -1, "mmap of {} bytes", bytes + 2 * PAGE);
            let pages = (all as *mut u8).add(PAGE);
            assert!(bytes == 0 || mprotect(pages as *mut c_void, bytes, READ_WRITE) == 0, "mprotect");
            pages
        };
        let mut lent = Lent { pages, bytes, at_end, len, kind: PhantomData };
        lent.slack_mut().fill(SLACK);
        lent
    }

    pub fn of(contents: &[T], at_end: bool) -> Lent<T> {
        let mut lent = Lent::new(contents.len(), at_end);
        lent.all_mut().copy_from_slice(contents);
        lent
    }

    pub fn len(&self) -> usize {
        self.len
    }

    /// A slice of the `len` elements beside the guard page: the last ones, or the first.
    pub fn lend(&mut self, len: usize) -> (*mut T, usize) {
        assert!(len <= self.len);
        let skip = if self.at_end { self.bytes - len * size_of::<T>() } else { 0 };
        (unsafe { self.pages.add(skip) } as *mut T, len)
    }

    pub fn all(&self) -> &[T] {
        let skip = if self.at_end { self.bytes - self.len * size_of::<T>() } else { 0 };
        unsafe { std::slice::from_raw_parts(self.pages.add(skip) as *const T, self.len) }
    }

    pub fn all_mut(&mut self) -> &mut [T] {
        let (start, len) = self.lend(self.len);
        unsafe { std::slice::from_raw_parts_mut(start, len) }
    }

    /// What `lend` lends.
    pub fn lent(&self, len: usize) -> &[T] {
        let first = if self.at_end { self.len - len } else { 0 };
        &self.all()[first..first + len]
    }

    /// The whole slice as it is if all of it held `filling`, and then the first of what `lend` lends became `written`.
    pub fn with(&self, filling: T, len: usize, written: &[T]) -> Vec<T> {
        let first = if self.at_end { self.len - len } else { 0 };
        let mut all = vec![filling; self.len];
        all[first..first + written.len()].copy_from_slice(written);
        all
    }

    fn slack_mut(&mut self) -> &mut [u8] {
        let used = self.len * size_of::<T>();
        let skip = if self.at_end { 0 } else { used };
        unsafe { std::slice::from_raw_parts_mut(self.pages.add(skip), self.bytes - used) }
    }

    pub fn slack_is_untouched(&mut self) -> bool {
        self.slack_mut().iter().all(|byte| *byte == SLACK)
    }
}

impl<T> Drop for Lent<T> {
    fn drop(&mut self) {
        let all = unsafe { munmap(self.pages.sub(PAGE) as *mut c_void, self.bytes + 2 * PAGE) };
        assert!(all == 0, "munmap");
    }
}
