//! Standard input and output as they are. Those of the library take one that can't be read for empty, and one that can't be written
//! for bottomless.

use std::fs::File;
use std::io::{self, Read, Write};
use std::os::fd::AsFd;
use std::time::Duration;

/// A descriptor of the program's own.
pub struct Descriptor(File);

impl Descriptor {
    pub fn input() -> io::Result<Self> {
        Self::of(io::stdin())
    }

    pub fn output() -> io::Result<Self> {
        Self::of(io::stdout())
    }

    fn of(standard: impl AsFd) -> io::Result<Self> {
        Ok(Descriptor(File::from(
            standard.as_fd().try_clone_to_owned()?,
        )))
    }
}

impl Read for Descriptor {
    fn read(&mut self, buffer: &mut [u8]) -> io::Result<usize> {
        patiently(|| self.0.read(buffer))
    }
}

impl Write for Descriptor {
    fn write(&mut self, bytes: &[u8]) -> io::Result<usize> {
        patiently(|| self.0.write(bytes))
    }

    fn flush(&mut self) -> io::Result<()> {
        self.0.flush()
    }
}

/// Tries again while a descriptor that does not wait has nothing at hand, or no room: some programs lend theirs so.
fn patiently<T>(mut attempt: impl FnMut() -> io::Result<T>) -> io::Result<T> {
    loop {
        match attempt() {
            Err(error) if error.kind() == io::ErrorKind::WouldBlock => {
                std::thread::sleep(Duration::from_millis(1));
            }
            result => return result,
        }
    }
}
