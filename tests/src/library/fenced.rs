//! Bytes to lend that are laid right before or right behind memory that may not be read, and that
//! may not be written themselves unless they are lent to be: a stray access ends the test by a
//! signal.

use std::os::raw::{c_int, c_long, c_void};
use std::{ptr, slice};

use crate::hex::show;
use crate::library::guarded::{told, FILLS};
use crate::{Answer, Outcome};

// Linux on x86-64, where the library runs.
const PROT_NONE: c_int = 0;
const PROT_READ: c_int = 1;
const PROT_WRITE: c_int = 2;
const MAP_PRIVATE: c_int = 2;
const MAP_ANONYMOUS: c_int = 0x20;
const MAP_NORESERVE: c_int = 0x4000;
const SC_PAGESIZE: c_int = 30;

extern "C" {
    fn mmap(
        at: *mut c_void,
        length: usize,
        prot: c_int,
        flags: c_int,
        fd: c_int,
        offset: c_long,
    ) -> *mut c_void;
    fn mprotect(at: *mut c_void, length: usize, prot: c_int) -> c_int;
    fn munmap(at: *mut c_void, length: usize) -> c_int;
    fn sysconf(name: c_int) -> c_long;
}

fn page() -> usize {
    let size = unsafe { sysconf(SC_PAGESIZE) };
    usize::try_from(size).expect("the size of a page")
}

/// Memory of its own, unmapped when it is dropped.
struct Mapping {
    start: *mut u8,
    length: usize,
}

impl Mapping {
    fn new(length: usize, prot: c_int) -> Mapping {
        let flags = MAP_PRIVATE | MAP_ANONYMOUS | MAP_NORESERVE;
        let start = unsafe { mmap(ptr::null_mut(), length, prot, flags, -1, 0) };
        assert!(start as isize != -1, "mmap of {length} bytes");
        Mapping {
            start: start.cast(),
            length,
        }
    }

    fn protect(&self, from: usize, length: usize, prot: c_int) {
        assert!(from + length <= self.length);
        let status = unsafe { mprotect(self.start.add(from).cast(), length, prot) };
        assert_eq!(status, 0, "mprotect");
    }

    /// Copies the bytes to that place, which must be writable; the copy.
    unsafe fn write(&self, at: usize, bytes: &[u8]) -> &[u8] {
        assert!(at + bytes.len() <= self.length);
        let to = self.start.add(at);
        ptr::copy_nonoverlapping(bytes.as_ptr(), to, bytes.len());
        slice::from_raw_parts(to, bytes.len())
    }
}

impl Drop for Mapping {
    fn drop(&mut self) {
        unsafe { munmap(self.start.cast(), self.length) };
    }
}

/// Room for bytes between two pages that may not be accessed.
pub struct Fenced {
    mapping: Mapping,
    room: usize,
}

/// Where in the room bytes are laid.
#[derive(Clone, Copy)]
pub enum Place {
    /// The first byte stands right behind the fence.
    AtTheStart,
    /// The last byte stands right before the fence.
    AtTheEnd,
}

impl Place {
    pub const BOTH: [Place; 2] = [Place::AtTheStart, Place::AtTheEnd];
}

impl Fenced {
    pub fn new(at_least: usize) -> Fenced {
        let room = (at_least / page() + 1) * page();
        Fenced {
            mapping: Mapping::new(room + 2 * page(), PROT_NONE),
            room,
        }
    }

    /// How far into the room so many bytes are laid.
    fn offset(&self, length: usize, place: Place) -> usize {
        assert!(length <= self.room);
        match place {
            Place::AtTheStart => 0,
            Place::AtTheEnd => self.room - length,
        }
    }

    /// Lends a copy of the bytes, laid at that place, to `lend`; then asserts that it is unchanged.
    pub fn lend(&self, bytes: &[u8], place: Place, lend: impl FnOnce(&[u8])) {
        let at = page() + self.offset(bytes.len(), place);
        self.mapping
            .protect(page(), self.room, PROT_READ | PROT_WRITE);
        let lent = unsafe { self.mapping.write(at, bytes) };
        self.mapping.protect(page(), self.room, PROT_READ);
        lend(lent);
        assert_eq!(lent, bytes, "the lent bytes were changed: {}", show(bytes));
    }

    /// Lends a copy of the values in the same way.
    pub fn lend_values(&self, values: &[u32], place: Place, lend: impl FnOnce(&[u32])) {
        let bytes: Vec<u8> = values.iter().flat_map(|v| v.to_ne_bytes()).collect();
        self.lend(&bytes, place, |lent| {
            // The room begins and ends with a page, so four bytes are a whole number of steps.
            assert!(lent.as_ptr().cast::<u32>().is_aligned());
            lend(unsafe { slice::from_raw_parts(lent.as_ptr().cast(), values.len()) });
        });
    }

    /// Lends a copy of the bytes, laid at that place, for a call to change; what they are then.
    /// Asserts that all others of the room are as before.
    pub fn changed(&mut self, bytes: &[u8], place: Place, call: impl FnOnce(&mut [u8])) -> Vec<u8> {
        let at = self.offset(bytes.len(), place);
        self.mapping
            .protect(page(), self.room, PROT_READ | PROT_WRITE);
        let room = unsafe { slice::from_raw_parts_mut(self.mapping.start.add(page()), self.room) };
        room.fill(FILLS[0]);
        let lent = at..at + bytes.len();
        room[lent.clone()].copy_from_slice(bytes);
        call(&mut room[lent.clone()]);
        let is_unchanged = |bytes: &[u8]| bytes.iter().all(|&byte| byte == FILLS[0]);
        assert!(is_unchanged(&room[..at]), "bytes before a buffer");
        assert!(is_unchanged(&room[lent.end..]), "bytes behind a buffer");
        room[lent].to_vec()
    }

    /// Lends `length` bytes, laid at that place, for a call to write to: those that it says it
    /// wrote, or its refusal. Asserts that all others of the room are as before; of a refused call,
    /// all.
    pub fn written(
        &mut self,
        length: usize,
        place: Place,
        call: impl FnOnce(&mut [u8]) -> Answer,
    ) -> Outcome {
        let at = self.offset(length, place);
        self.mapping
            .protect(page(), self.room, PROT_READ | PROT_WRITE);
        let room = unsafe { slice::from_raw_parts_mut(self.mapping.start.add(page()), self.room) };
        room.fill(FILLS[0]);
        let answer = call(&mut room[at..at + length]);
        told(room, at, length, FILLS[0], answer)
    }
}

/// Lends `length` zeros to write to, of which the first page may be accessed.
pub fn lend_long_to_write(length: usize, lend: impl FnOnce(&mut [u8])) {
    let mapping = Mapping::new(length + page(), PROT_NONE);
    mapping.protect(0, page(), PROT_READ | PROT_WRITE);
    lend(unsafe { slice::from_raw_parts_mut(mapping.start, length) });
}

/// Lends `length` bytes, which are `first` and zeros behind it, without that much memory.
pub fn lend_long(first: &[u8], length: usize, lend: impl FnOnce(&[u8])) {
    let mapping = Mapping::new(length + page(), PROT_READ);
    mapping.protect(0, page(), PROT_READ | PROT_WRITE);
    let lent = unsafe {
        mapping.write(0, first);
        slice::from_raw_parts(mapping.start, length)
    };
    mapping.protect(0, page(), PROT_READ);
    lend(lent);
}
