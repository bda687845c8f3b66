//! A volume of JFFS version 1 on any flash. What is written is decided by the proved library `libjffs_c.a`; this crate
//! carries out its calls on a [`Device`], and isn't proved.
//!
//! ```
//! use pumpgrape::{Device, Volume};
//!
//! struct Memory(Vec<u8>);
//!
//! impl Device for Memory {
//!     type Error = std::convert::Infallible;
//!     fn read(&mut self, at: u32, buffer: &mut [u8]) -> Result<(), Self::Error> {
//!         buffer.copy_from_slice(&self.0[at as usize..][..buffer.len()]);
//!         Ok(())
//!     }
//!     fn program(&mut self, at: u32, bytes: &[u8]) -> Result<(), Self::Error> {
//!         self.0[at as usize..].iter_mut().zip(bytes).for_each(|(old, new)| *old &= new);
//!         Ok(())
//!     }
//!     fn erase(&mut self, at: u32, len: u32) -> Result<(), Self::Error> {
//!         self.0[at as usize..][..len as usize].fill(0xff);
//!         Ok(())
//!     }
//! }
//!
//! let mut volume = Volume::open(Memory(vec![0xff; 6 * 1024]), 6, 1024).map_err(|(why, _)| why)?;
//! volume.create("/greeting")?;
//! volume.write("/greeting", 0, b"hello")?;
//! assert_eq!(volume.read("/greeting", 0, 16)?, b"hello");
//! # Ok::<(), pumpgrape::Error<std::convert::Infallible>>(())
//! ```
mod code;
mod ffi;
mod memory;
mod volume;

pub use code::Code;
pub use volume::{Device, Entry, Error, Refusal, Sight, Usage, Volume};
