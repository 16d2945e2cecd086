//! Memory by the page: lists longer than the machine has memory for, and lists
//! beside memory that nobody may touch. The only unsafe code of the tests.

use std::ffi::c_void;
use std::{ptr, slice};

extern "C" {
    fn mmap(
        address: *mut c_void,
        length: usize,
        protection: i32,
        flags: i32,
        file: i32,
        offset: i64,
    ) -> *mut c_void;
    fn munmap(address: *mut c_void, length: usize) -> i32;
    fn mprotect(address: *mut c_void, length: usize, protection: i32) -> i32;
}

const NO_ACCESS: i32 = 0;
const READ_AND_WRITE: i32 = 1 | 2;
/// Private, anonymous, and without memory set aside for it.
const FLAGS: i32 = 0x02 | 0x20 | 0x4000;
const PAGE: usize = 4_096;

/// Numbers that any bytes make.
pub trait Plain: Copy {}
impl Plain for u8 {}
impl Plain for i64 {}
impl Plain for f64 {}
impl Plain for u64 {}

/// Zeros, of which only those that are written to take memory.
pub struct Mapping {
    start: *mut u8,
    bytes: usize,
}

impl Mapping {
    fn new(bytes: usize) -> Option<Self> {
        // SAFETY: a new mapping, wherever there is room for it.
        let start = unsafe { mmap(ptr::null_mut(), bytes, READ_AND_WRITE, FLAGS, -1, 0) };
        // 2^64 - 1 stands for a failure.
        let start = (start.addr() != usize::MAX).then_some(start.cast())?;
        Some(Mapping { start, bytes })
    }

    /// 2^40 bytes, or as many as the machine gives, but more than 32 bits
    /// count.
    pub fn long() -> Self {
        let sizes = (33..=40).rev().map(|power| 1 << power);
        let mapping = sizes.into_iter().find_map(Mapping::new);
        mapping.expect("no machine for this test: it gives no 2^33 bytes of addresses")
    }

    /// All of it.
    pub fn list<T: Plain>(&mut self) -> &mut [T] {
        let length = self.bytes / size_of::<T>();
        // SAFETY: the mapping is this one's own, and lives as long; it starts
        // with a page, so it is aligned; any bytes are a `T`.
        unsafe { slice::from_raw_parts_mut(self.start.cast(), length) }
    }
}

impl Drop for Mapping {
    fn drop(&mut self) {
        // SAFETY: nothing is lent any more.
        let failed = unsafe { munmap(self.start.cast(), self.bytes) };
        assert_eq!(failed, 0);
    }
}

/// Room for a list between two pages that nobody may touch: where a call so
/// much as reads beside the list, the process ends.
pub struct Guarded(Mapping);

impl Guarded {
    /// Room for this many bytes.
    pub fn new(bytes: usize) -> Self {
        let room = bytes.next_multiple_of(PAGE);
        let mapping = Mapping::new(room + 2 * PAGE).expect("the memory is there");
        for page in [0, PAGE + room] {
            // SAFETY: a page of the mapping. Nothing is lent yet, and what is
            // lent later lies between the two.
            let failed = unsafe { mprotect(mapping.start.add(page).cast(), PAGE, NO_ACCESS) };
            assert_eq!(failed, 0);
        }
        Guarded(mapping)
    }

    /// A copy of the list, straight after the first page or straight before the
    /// last. At the end an empty list is a pointer to that page.
    pub fn lend<T: Plain>(&mut self, list: &[T], at_end: bool) -> &mut [T] {
        let room = (self.0.bytes - 2 * PAGE) / size_of::<T>();
        assert!(list.len() <= room);
        let skipped = if at_end { room - list.len() } else { 0 };
        // SAFETY: within the room, which is aligned for any `T`, and this one's
        // own; the list is copied there before it is lent.
        unsafe {
            let start = self.0.start.add(PAGE).cast::<T>().add(skipped);
            ptr::copy_nonoverlapping(list.as_ptr(), start, list.len());
            slice::from_raw_parts_mut(start, list.len())
        }
    }
}
