//! The calls of the library, as `clients/c/bitcol.h` declares them: all unsafe code of this crate.
//!
//! The library's requirements are met here: a `Handle` is a store that was opened, and that is closed once, when it is
//! dropped; `&mut` lets only one call at a time use it; and the pointer of a slice isn't null, and points to as many
//! bytes as the slice's length says.

use std::ffi::c_void;
use std::ptr;

pub(crate) const DONE: u32 = 0;
pub(crate) const STOPPED: u32 = 1;
pub(crate) const NO_ROOM: u32 = 46;

#[derive(Debug)]
#[repr(C)]
struct Opened {
    store: *mut c_void,
}

extern "C" {
    fn bitcol_open(stops: u32, out: *mut Opened) -> u32;
    fn bitcol_answer(store: *mut Opened, script: *const u8, length: usize) -> u32;
    fn bitcol_reply_length(store: *mut Opened) -> usize;
    fn bitcol_reply(store: *mut Opened, from: usize, out: *mut u8, room: usize) -> usize;
    fn bitcol_put_file(
        store: *mut Opened,
        name: *const u8,
        name_length: usize,
        bytes: *const u8,
        length: usize,
    ) -> u32;
    fn bitcol_file(
        store: *mut Opened,
        name: *const u8,
        name_length: usize,
        out: *mut u8,
        room: usize,
        length: *mut usize,
    ) -> u32;
    fn bitcol_close(store: Opened);
}

/// An open store.
#[derive(Debug)]
pub(crate) struct Handle {
    opened: Opened,
}

// SAFETY: the library keeps no thread-local state, and lets a store move to another thread between two calls.
unsafe impl Send for Handle {}

/// Opens a store without tables. `None` when out of memory.
pub(crate) fn open(stops: bool) -> Option<Handle> {
    let mut opened = Opened {
        store: ptr::null_mut(),
    };
    // SAFETY: there is room for a store.
    let status = unsafe { bitcol_open(stops.into(), &mut opened) };
    (status == DONE).then_some(Handle { opened })
}

pub(crate) fn answer(handle: &mut Handle, script: &[u8]) -> u32 {
    // SAFETY: the store is open, and the script is a slice.
    unsafe { bitcol_answer(&mut handle.opened, script.as_ptr(), script.len()) }
}

pub(crate) fn reply_length(handle: &mut Handle) -> usize {
    // SAFETY: the store is open.
    unsafe { bitcol_reply_length(&mut handle.opened) }
}

pub(crate) fn reply(handle: &mut Handle, from: usize, out: &mut [u8]) -> usize {
    // SAFETY: the store is open, and the room is a slice.
    unsafe { bitcol_reply(&mut handle.opened, from, out.as_mut_ptr(), out.len()) }
}

pub(crate) fn put_file(handle: &mut Handle, name: &[u8], bytes: &[u8]) -> u32 {
    // SAFETY: the store is open, and name and bytes are slices.
    unsafe {
        bitcol_put_file(
            &mut handle.opened,
            name.as_ptr(),
            name.len(),
            bytes.as_ptr(),
            bytes.len(),
        )
    }
}

/// The status, and the length that the library wrote.
pub(crate) fn file(handle: &mut Handle, name: &[u8], out: &mut [u8]) -> (u32, usize) {
    let mut length = 0;
    // SAFETY: the store is open, name and room are slices, and there is room for a length.
    let status = unsafe {
        bitcol_file(
            &mut handle.opened,
            name.as_ptr(),
            name.len(),
            out.as_mut_ptr(),
            out.len(),
            &mut length,
        )
    };
    (status, length)
}

impl Drop for Handle {
    fn drop(&mut self) {
        let store = self.opened.store;
        // SAFETY: the store is open, and nothing uses it after this.
        unsafe { bitcol_close(Opened { store }) }
    }
}
