//! What the library answers.
use crate::ffi;
use std::fmt;

/// What the library answers, but for `Done`, as `pumpgrape.h` has it.
#[derive(Clone, Copy, Debug, PartialEq, Eq)]
pub enum Code {
    RootFixed = 1,
    NoParent = 2,
    NameTaken = 3,
    NotFound = 4,
    IsDirectory = 5,
    DataLong = 6,
    FileLong = 7,
    NotEmpty = 8,
    NotNeeded = 9,
    Stale = 10,
    InodesSpent = 11,
    VersionsSpent = 12,
    Memory = 13,
    NoSpace = 14,
    Device = 15,
    Failed = 16,
    CallsLeft = 17,
    Nothing = 18,
    BufferShort = 19,
    PathNoSlash = 20,
    PathNameEmpty = 21,
    PathNameLong = 22,
    PathNameByte = 23,
    PathDeep = 24,
    Geometry = 25,
    BadRecord = 26,
    NoErased = 27,
    Scattered = 28,
    BadOrder = 29,
    BadTree = 30,
}

/// Each code.
const CODES: [Code; 30] = [
    Code::RootFixed,
    Code::NoParent,
    Code::NameTaken,
    Code::NotFound,
    Code::IsDirectory,
    Code::DataLong,
    Code::FileLong,
    Code::NotEmpty,
    Code::NotNeeded,
    Code::Stale,
    Code::InodesSpent,
    Code::VersionsSpent,
    Code::Memory,
    Code::NoSpace,
    Code::Device,
    Code::Failed,
    Code::CallsLeft,
    Code::Nothing,
    Code::BufferShort,
    Code::PathNoSlash,
    Code::PathNameEmpty,
    Code::PathNameLong,
    Code::PathNameByte,
    Code::PathDeep,
    Code::Geometry,
    Code::BadRecord,
    Code::NoErased,
    Code::Scattered,
    Code::BadOrder,
    Code::BadTree,
];

impl Code {
    /// The code with this number; `None` for `Done`.
    ///
    /// # Panics
    ///
    /// Where no code has the number: the library and this crate are then of different versions.
    pub(crate) fn of(number: u32) -> Option<Code> {
        if number == 0 {
            return None;
        }
        let known = CODES.iter().copied().find(|code| *code as u32 == number);
        Some(known.expect("the library and this crate are of one version"))
    }
}

/// What the library says of it, in plain words.
impl fmt::Display for Code {
    fn fmt(&self, f: &mut fmt::Formatter<'_>) -> fmt::Result {
        let mut text = [0u8; 64];
        let len = unsafe { ffi::pg_text(*self as u32, text.as_mut_ptr(), text.len()) };
        f.write_str(std::str::from_utf8(&text[..len]).unwrap_or("a code without words"))
    }
}
