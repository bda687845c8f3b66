//! The functions of `pumpgrape.h` that are called here.
use core::ffi::c_void;

#[repr(C)]
#[derive(Clone, Copy)]
pub struct Handle {
    pub inner: *mut c_void,
}

#[repr(C)]
#[derive(Clone, Copy, Debug, Default, PartialEq, Eq)]
pub struct Refusal {
    pub sector: u32,
    pub place: u32,
    pub rule: u32,
}

#[repr(C)]
#[derive(Default)]
pub struct Call {
    pub erase: bool,
    pub at: u32,
    pub len: u32,
}

#[repr(C)]
#[derive(Clone, Copy, Debug, Default, PartialEq, Eq)]
pub struct Sight {
    pub directory: bool,
    pub size: u32,
}

#[repr(C)]
#[derive(Clone, Copy, Debug, Default, PartialEq, Eq)]
pub struct Usage {
    pub sectors: u32,
    pub sector_size: u32,
    pub erased: u32,
    pub records: u32,
    pub weight: u64,
    pub sure: u64,
}

extern "C" {
    pub fn pg_open(medium: *const u8, len: usize, size: u32, volume: *mut Handle, why: *mut Refusal) -> u32;
    pub fn pg_close(volume: Handle);
    pub fn pg_create(volume: *mut Handle, path: *const u8, len: usize) -> u32;
    pub fn pg_mkdir(volume: *mut Handle, path: *const u8, len: usize) -> u32;
    pub fn pg_remove(volume: *mut Handle, path: *const u8, len: usize) -> u32;
    pub fn pg_write(v: *mut Handle, path: *const u8, len: usize, at: u32, bytes: *const u8, count: usize) -> u32;
    pub fn pg_truncate(volume: *mut Handle, path: *const u8, len: usize, size: u32) -> u32;
    pub fn pg_rename(v: *mut Handle, from: *const u8, from_len: usize, to: *const u8, to_len: usize) -> u32;
    pub fn pg_unmount(volume: *mut Handle) -> u32;
    pub fn pg_clean(volume: *mut Handle) -> u32;
    pub fn pg_erase_dead(volume: *mut Handle) -> u32;
    pub fn pg_next_call(volume: *mut Handle, call: *mut Call, buffer: *mut u8, len: usize) -> u32;
    pub fn pg_carried_out(volume: *mut Handle) -> u32;
    pub fn pg_call_failed(volume: *mut Handle) -> u32;
    pub fn pg_look(volume: *mut Handle, path: *const u8, len: usize, sight: *mut Sight) -> u32;
    pub fn pg_read(
        volume: *mut Handle,
        path: *const u8,
        len: usize,
        offset: u32,
        buffer: *mut u8,
        buffer_len: usize,
        count: *mut usize,
    ) -> u32;
    pub fn pg_entry(
        volume: *mut Handle,
        path: *const u8,
        len: usize,
        number: u32,
        name: *mut u8,
        name_size: usize,
        name_len: *mut usize,
        sight: *mut Sight,
    ) -> u32;
    pub fn pg_usage_of(volume: *mut Handle, usage: *mut Usage) -> u32;
    pub fn pg_wants_cleaning(volume: *mut Handle, wants: *mut bool) -> u32;
    pub fn pg_text(code: u32, buffer: *mut u8, len: usize) -> usize;
}
