//! A mounted volume on a device.
use crate::code::Code;
use crate::ffi;
pub use crate::ffi::{Refusal, Sight, Usage};
use std::fmt;

/// A flash chip. Offsets and lengths are in bytes from the medium's start, and stay within it.
pub trait Device {
    type Error;

    /// Fills the buffer with the bytes from `at` on.
    fn read(&mut self, at: u32, buffer: &mut [u8]) -> Result<(), Self::Error>;

    /// Each byte `old` from `at` on becomes `old & new`.
    fn program(&mut self, at: u32, bytes: &[u8]) -> Result<(), Self::Error>;

    /// Each byte of a sector becomes 0xff. After an error it may hold any bytes.
    fn erase(&mut self, at: u32, len: u32) -> Result<(), Self::Error>;
}

/// Why something wasn't done.
#[derive(Debug, PartialEq, Eq)]
pub enum Error<E> {
    /// The library refused it. After `Failed` and `Device` the volume is to be opened anew.
    Refused(Code),
    /// A record of the medium breaks a rule, so there is no volume.
    BadRecord(Refusal),
    /// The device failed. From then on all is refused as `Failed`.
    Device(E),
}

impl<E: fmt::Display> fmt::Display for Error<E> {
    fn fmt(&self, f: &mut fmt::Formatter<'_>) -> fmt::Result {
        match self {
            Error::Refused(code) => code.fmt(f),
            Error::BadRecord(why) => write!(f, "the record at byte {} of sector {} is bad", why.place, why.sector),
            Error::Device(error) => error.fmt(f),
        }
    }
}

impl<E: fmt::Debug + fmt::Display> std::error::Error for Error<E> {}

/// A name in a directory, and what stands under it.
#[derive(Clone, Debug, PartialEq, Eq)]
pub struct Entry {
    pub name: String,
    pub sight: Sight,
}

/// A mounted volume. Dropping it gives its memory back and writes nothing.
pub struct Volume<D: Device> {
    handle: ffi::Handle,
    device: Option<D>,
    buffer: Vec<u8>,
}

impl<D: Device> Volume<D> {
    /// Mounts a device of 6 to 64 sectors of 1024, 2048, 4096, 8192 or 16384 bytes, and ends an erase that was cut
    /// off on it. A refusal hands the device back.
    pub fn open(mut device: D, sectors: u32, sector_size: u32) -> Result<Volume<D>, (Error<D::Error>, D)> {
        let mut medium = vec![0; sectors as usize * sector_size as usize];
        if let Err(error) = device.read(0, &mut medium) {
            return Err((Error::Device(error), device));
        }
        let mut handle = ffi::Handle { inner: std::ptr::null_mut() };
        let mut why = Refusal::default();
        let code = unsafe { ffi::pg_open(medium.as_ptr(), medium.len(), sector_size, &mut handle, &mut why) };
        match Code::of(code) {
            None => Volume { handle, device: Some(device), buffer: vec![0; sector_size as usize / 4] }.ended(),
            Some(Code::BadRecord) => Err((Error::BadRecord(why), device)),
            Some(code) => Err((Error::Refused(code), device)),
        }
    }

    /// Carries out what opening left, which ends an erase.
    fn ended(mut self) -> Result<Volume<D>, (Error<D::Error>, D)> {
        match self.carry_out() {
            Ok(()) => Ok(self),
            Err(error) => Err((error, self.device.take().expect("it is taken by `unmount` alone"))),
        }
    }

    /// Makes a file without bytes.
    pub fn create(&mut self, path: &str) -> Result<(), Error<D::Error>> {
        let code = unsafe { ffi::pg_create(&mut self.handle, path.as_ptr(), path.len()) };
        self.changed(code)
    }

    /// Makes a directory without names.
    pub fn create_dir(&mut self, path: &str) -> Result<(), Error<D::Error>> {
        let code = unsafe { ffi::pg_mkdir(&mut self.handle, path.as_ptr(), path.len()) };
        self.changed(code)
    }

    /// Removes a file, or a directory without names.
    pub fn remove(&mut self, path: &str) -> Result<(), Error<D::Error>> {
        let code = unsafe { ffi::pg_remove(&mut self.handle, path.as_ptr(), path.len()) };
        self.changed(code)
    }

    /// Writes bytes into a file from `offset` on; at most a quarter of a sector less 64.
    pub fn write(&mut self, path: &str, offset: u32, bytes: &[u8]) -> Result<(), Error<D::Error>> {
        let code = unsafe {
            ffi::pg_write(&mut self.handle, path.as_ptr(), path.len(), offset, bytes.as_ptr(), bytes.len())
        };
        self.changed(code)
    }

    /// Cuts a file to `size` bytes, or fills it up with zeros.
    pub fn truncate(&mut self, path: &str, size: u32) -> Result<(), Error<D::Error>> {
        let code = unsafe { ffi::pg_truncate(&mut self.handle, path.as_ptr(), path.len(), size) };
        self.changed(code)
    }

    /// Gives what stands at `from` another name. Nothing may stand at `to`.
    pub fn rename(&mut self, from: &str, to: &str) -> Result<(), Error<D::Error>> {
        let code =
            unsafe { ffi::pg_rename(&mut self.handle, from.as_ptr(), from.len(), to.as_ptr(), to.len()) };
        self.changed(code)
    }

    /// Ends the log with an unmount record, and hands the device back.
    pub fn unmount(mut self) -> (Option<D>, Result<(), Error<D::Error>>) {
        let code = unsafe { ffi::pg_unmount(&mut self.handle) };
        let done = self.changed(code);
        (self.device.take(), done)
    }

    /// Cleans the oldest sector; `false` where the log has one sector at most.
    pub fn clean(&mut self) -> Result<bool, Error<D::Error>> {
        match unsafe { ffi::pg_clean(&mut self.handle) } {
            code if Code::of(code) == Some(Code::Nothing) => Ok(false),
            code => self.changed(code).map(|()| true),
        }
    }

    /// Whether cleaning is worth it: at most half of the sectors are erased.
    pub fn wants_cleaning(&mut self) -> Result<bool, Error<D::Error>> {
        let mut wants = false;
        looked(unsafe { ffi::pg_wants_cleaning(&mut self.handle, &mut wants) }).map(|()| wants)
    }

    /// Erases the dead sectors, the oldest first.
    pub fn erase_dead(&mut self) -> Result<(), Error<D::Error>> {
        let code = unsafe { ffi::pg_erase_dead(&mut self.handle) };
        self.changed(code)
    }

    /// What stands at a path.
    pub fn look(&mut self, path: &str) -> Result<Sight, Error<D::Error>> {
        let mut sight = Sight::default();
        looked(unsafe { ffi::pg_look(&mut self.handle, path.as_ptr(), path.len(), &mut sight) }).map(|()| sight)
    }

    /// At most `len` bytes of a file from `offset` on.
    pub fn read(&mut self, path: &str, offset: u32, len: usize) -> Result<Vec<u8>, Error<D::Error>> {
        let (mut bytes, mut count) = (vec![0; len], 0);
        looked(unsafe {
            let buffer = bytes.as_mut_ptr();
            ffi::pg_read(&mut self.handle, path.as_ptr(), path.len(), offset, buffer, len, &mut count)
        })?;
        bytes.truncate(count);
        Ok(bytes)
    }

    /// The names in a directory, in the order of their bytes.
    pub fn names(&mut self, path: &str) -> Result<Vec<Entry>, Error<D::Error>> {
        let mut found = Vec::new();
        loop {
            let (mut name, mut len, mut sight) = ([0u8; 20], 0, Sight::default());
            let code = unsafe {
                let (number, buffer) = (found.len() as u32, name.as_mut_ptr());
                ffi::pg_entry(&mut self.handle, path.as_ptr(), path.len(), number, buffer, 20, &mut len, &mut sight)
            };
            match Code::of(code) {
                None => found.push(Entry { name: String::from_utf8_lossy(&name[..len]).into_owned(), sight }),
                Some(Code::Nothing) => return Ok(found),
                Some(code) => return Err(Error::Refused(code)),
            }
        }
    }

    /// How full the volume is.
    pub fn usage(&mut self) -> Result<Usage, Error<D::Error>> {
        let mut usage = Usage::default();
        looked(unsafe { ffi::pg_usage_of(&mut self.handle, &mut usage) }).map(|()| usage)
    }

    /// Carries out what a change left; the change's own answer is given where all of it could be.
    fn changed(&mut self, code: u32) -> Result<(), Error<D::Error>> {
        self.carry_out()?;
        looked(code)
    }

    fn carry_out(&mut self) -> Result<(), Error<D::Error>> {
        let mut call = ffi::Call::default();
        loop {
            let buffer = &mut self.buffer;
            let code =
                unsafe { ffi::pg_next_call(&mut self.handle, &mut call, buffer.as_mut_ptr(), buffer.len()) };
            let Some(device) = self.device.as_mut().filter(|_| Code::of(code).is_none()) else {
                return Ok(());
            };
            let done = if call.erase {
                device.erase(call.at, call.len)
            } else {
                device.program(call.at, &buffer[..call.len as usize])
            };
            if let Err(error) = done {
                unsafe { ffi::pg_call_failed(&mut self.handle) };
                return Err(Error::Device(error));
            }
            unsafe { ffi::pg_carried_out(&mut self.handle) };
        }
    }
}

impl<D: Device> Drop for Volume<D> {
    fn drop(&mut self) {
        unsafe { ffi::pg_close(self.handle) };
    }
}

fn looked<E>(code: u32) -> Result<(), Error<E>> {
    Code::of(code).map_or(Ok(()), |code| Err(Error::Refused(code)))
}
