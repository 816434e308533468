//! The scene of a script: an image and a hart.

use crate::registers;
use crate::suggest::shown;
use crate::views;
use balcumentri::{Hart, Image, ImageMut};
use std::fs::File;
use std::io::{self, Read};
use std::path::Path;

/// The largest image that is held, in bytes: 1 GiB.
const LARGEST: u64 = 0x4000_0000;

/// The longest path that can name a file, in bytes.
const LONGEST_PATH: usize = 4096;

/// The image and the hart that the events meet.
pub struct Scene {
    base: u64,
    bytes: Vec<u8>,
    pub hart: Hart,
}

impl Scene {
    /// Before the first line: an empty image, and a hart in M at 0.
    pub fn new() -> Self {
        Scene {
            base: 0,
            bytes: Vec::new(),
            hart: Hart::new(0, 3, 0),
        }
    }

    pub fn image(&self) -> Image<'_> {
        Image {
            base: self.base,
            bytes: &self.bytes,
        }
    }

    /// The hart and the image, for an event that may change both.
    pub fn parts(&mut self) -> (&mut Hart, ImageMut<'_>) {
        let image = ImageMut {
            base: self.base,
            bytes: &mut self.bytes,
        };
        (&mut self.hart, image)
    }

    /// A new image of zero bytes.
    pub fn clear_image(&mut self, base: u64, length: u64) -> Result<(), String> {
        self.bytes = Vec::new();
        let size = usize::try_from(length).unwrap_or(usize::MAX);
        if length > LARGEST || Vec::<u8>::new().try_reserve_exact(size).is_err() {
            return Err(format!(
                "an image of {length:x} bytes is more than this program holds"
            ));
        }
        self.base = base;
        self.bytes = vec![0; size];
        Ok(())
    }

    /// A new image: the bytes of a file, whose path starts from a folder.
    pub fn load_image(&mut self, base: u64, folder: &Path, path: &Path) -> Result<(), String> {
        let name = file_name(path);
        let start = match () {
            () if path.is_absolute() => "",
            () if folder.as_os_str().is_empty() => "; its path starts from the working directory",
            () => "; its path starts from the script's folder",
        };
        let unreadable = |error: io::Error| match error.kind() {
            io::ErrorKind::NotFound => format!("{name} can't be read: {error}{start}"),
            _ => format!("{name} can't be read: {error}"),
        };
        if path.as_os_str().len() > LONGEST_PATH {
            return Err(format!("{name} can't be read: its path is too long"));
        }
        let path = folder.join(path);
        let mut bytes = Vec::new();
        let file = File::open(path).map_err(unreadable)?;
        file.take(LARGEST + 1)
            .read_to_end(&mut bytes)
            .map_err(unreadable)?;
        if bytes.len() as u64 > LARGEST {
            return Err(format!("{name} is more than this program holds"));
        }
        self.base = base;
        self.bytes = bytes;
        Ok(())
    }

    /// Eight bytes, little-endian, at a machine address.
    pub fn put(&mut self, address: u64, value: u64) -> Result<(), String> {
        let eight = address
            .checked_sub(self.base)
            .and_then(|offset| usize::try_from(offset).ok())
            .and_then(|offset| self.bytes.get_mut(offset..)?.first_chunk_mut());
        match eight {
            Some(eight) => *eight = value.to_le_bytes(),
            None => {
                let image = match self.bytes.len() {
                    0 => "is empty".to_owned(),
                    length => format!("has {length:x} bytes from {:x} on", self.base),
                };
                return Err(format!(
                    "the eight bytes at {address:x} don't lie in the image, which {image}"
                ));
            }
        }
        Ok(())
    }

    /// A stored register holds a value.
    pub fn hold(&mut self, number: u64, value: u64) -> Result<(), String> {
        if self.hart.put_register(number, value) {
            return Ok(());
        }
        if registers::name(number).is_none() {
            return Err(format!("the model has no register {number:x}"));
        }
        let what = match views::home(number) {
            Some(home) => format!("a view of {}", registers::title(home)),
            None => "a constant".to_owned(),
        };
        let register = registers::title(number);
        Err(format!("{register} is not stored: it is {what}"))
    }
}

/// The name of a file without its folders, for a sentence.
pub fn file_name(path: &Path) -> String {
    let last = path.components().next_back();
    shown(last.map_or(&[], |last| last.as_os_str().as_encoded_bytes()))
}
