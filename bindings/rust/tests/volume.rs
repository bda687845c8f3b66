//! A volume on flash in memory that may fail, by the functions of this crate.
use pumpgrape::{Code, Device, Error, Volume};

/// Flash of which the call of number `fails_at`, from 1, fails: a program does half of its work, an erase has cleared
/// its sector, as many chips do before they erase it.
struct Flash {
    bytes: Vec<u8>,
    calls: usize,
    fails_at: usize,
}

#[derive(Debug, PartialEq, Eq)]
struct Broken;

impl Flash {
    fn new(fails_at: usize) -> Flash {
        Flash { bytes: vec![0xff; 6 * 1024], calls: 0, fails_at }
    }

    fn end(&mut self, len: usize) -> (usize, Result<(), Broken>) {
        self.calls += 1;
        if self.calls == self.fails_at {
            (len / 2, Err(Broken))
        } else {
            (len, Ok(()))
        }
    }
}

impl Device for Flash {
    type Error = Broken;

    fn read(&mut self, at: u32, buffer: &mut [u8]) -> Result<(), Broken> {
        buffer.copy_from_slice(&self.bytes[at as usize..][..buffer.len()]);
        Ok(())
    }

    fn program(&mut self, at: u32, bytes: &[u8]) -> Result<(), Broken> {
        let (len, done) = self.end(bytes.len());
        self.bytes[at as usize..].iter_mut().zip(&bytes[..len]).for_each(|(old, new)| *old &= new);
        done
    }

    fn erase(&mut self, at: u32, len: u32) -> Result<(), Broken> {
        let (_, done) = self.end(len as usize);
        self.bytes[at as usize..][..len as usize].fill(if done.is_ok() { 0xff } else { 0 });
        done
    }
}

fn open(flash: Flash) -> Volume<Flash> {
    Volume::open(flash, 6, 1024).map_err(|(why, _)| why).expect("a volume")
}

#[test]
fn what_is_written_is_read_after_a_mount() {
    let mut volume = open(Flash::new(0));
    volume.create_dir("/d").unwrap();
    volume.create("/d/f").unwrap();
    volume.write("/d/f", 0, b"hello").unwrap();
    volume.truncate("/d/f", 4).unwrap();
    volume.rename("/d/f", "/d/g").unwrap();
    let (flash, done) = volume.unmount();
    done.unwrap();
    let mut volume = open(flash.unwrap());
    assert_eq!(volume.read("/d/g", 0, 100).unwrap(), b"hell");
    let names = volume.names("/d").unwrap();
    assert_eq!((names.len(), names[0].name.as_str(), names[0].sight.size), (1, "g", 4));
    assert_eq!(volume.usage().unwrap().sure, 1408);
}

#[test]
fn a_refusal_has_its_code_and_words() {
    let mut volume = open(Flash::new(0));
    assert_eq!(volume.remove("/none"), Err(Error::Refused(Code::NotFound)));
    assert_eq!(volume.create("none"), Err(Error::Refused(Code::PathNoSlash)));
    assert_eq!(volume.write("/", 0, &[0; 193]), Err(Error::Refused(Code::IsDirectory)));
    assert_eq!(Code::NotFound.to_string(), "nothing stands at the path");
    assert!(Volume::open(Flash::new(0), 5, 1024).is_err());
}

#[test]
fn after_each_failure_the_volume_opens_with_what_was_done_or_one_change_more() {
    for fails_at in 1..=8 {
        let mut volume = open(Flash::new(fails_at));
        let made = (0..4).take_while(|n| volume.create(&format!("/f{n}")).is_ok()).count();
        assert_eq!(made, (fails_at - 1) / 2);
        assert_eq!(volume.create("/more"), Err(Error::Refused(Code::Failed)));
        let (flash, done) = volume.unmount();
        assert_eq!(done, Err(Error::Refused(Code::Failed)));
        let names = open(flash.unwrap()).names("/").unwrap().len();
        assert!(names == made || names == made + 1, "{names} names after {made}");
    }
}

#[test]
fn an_erase_that_is_cut_off_is_ended_when_the_volume_is_opened() {
    for fails_at in [11, 12] {
        let mut volume = open(Flash::new(fails_at));
        volume.create("/f").unwrap();
        (0..4).for_each(|n| volume.write("/f", 0, &[n; 192]).unwrap());
        assert_eq!(volume.clean(), Err(Error::Device(Broken)));
        let mut flash = volume.unmount().0.unwrap();
        assert_eq!(flash.calls, fails_at);
        flash.fails_at += 2; // the call that ends it fails too
        let Err((Error::Device(Broken), flash)) = Volume::open(flash, 6, 1024) else { panic!("no failure") };
        let mut volume = open(flash);
        assert_eq!(volume.read("/f", 0, 200).unwrap(), [3; 192]);
        assert_eq!(volume.usage().unwrap().erased, 5);
    }
}

/// The codes here are those of the header.
#[test]
fn codes_are_those_of_the_header() {
    let header = include_str!("../../c/pumpgrape.h");
    for (name, number) in [("PG_ROOT_FIXED", 1), ("PG_FAILED", 16), ("PG_CALLS_LEFT", 17), ("PG_BAD_TREE", 30)] {
        assert!(header.contains(&format!("    {name} = {number}")), "{name}");
    }
    assert_eq!((Code::RootFixed as u32, Code::CallsLeft as u32, Code::BadTree as u32), (1, 17, 30));
}
