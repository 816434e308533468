//! Translations: what goes in, and what comes back.

use crate::ffi::{List, TranslationWords, PLACES};

/// A run of bytes from a machine address on, which the model reads.
#[derive(Clone, Copy, Debug)]
pub struct Image<'a> {
    /// The machine address of the first byte.
    pub base: u64,
    /// The bytes.
    pub bytes: &'a [u8],
}

/// The same, lent for HSV, which writes it.
///
/// ```
/// use balcumentri::ImageMut;
///
/// let mut bytes = vec![0; 0x1000];
/// let image = ImageMut { base: 0x8000_0000, bytes: &mut bytes };
/// assert_eq!(image.as_image().bytes.len(), 0x1000);
/// ```
#[derive(Debug)]
pub struct ImageMut<'a> {
    /// The machine address of the first byte.
    pub base: u64,
    /// The bytes.
    pub bytes: &'a mut [u8],
}

impl ImageMut<'_> {
    /// The image as it is now, for what only reads it.
    pub fn as_image(&self) -> Image<'_> {
        Image {
            base: self.base,
            bytes: self.bytes,
        }
    }
}

/// The kinds of access.
#[derive(Clone, Copy, Debug, PartialEq, Eq)]
pub enum Kind {
    /// An instruction fetch.
    Fetch,
    /// A load.
    Load,
    /// A store.
    Store,
}

/// An access: its kind, virtual address and width in bytes.
#[derive(Clone, Copy, Debug, PartialEq, Eq)]
pub struct Access {
    /// Fetch, load or store.
    pub kind: Kind,
    /// The virtual address.
    pub address: u64,
    /// How many bytes; the model refuses other than 1, 2, 4 and 8.
    pub width: u64,
}

/// A fault, which is also a trap request.
#[derive(Clone, Copy, Debug, PartialEq, Eq)]
pub struct Fault {
    /// The cause's number. Of what a translation answers, its kind's own: 1, 12, 20 of a fetch, 4, 5, 13, 21 of a load, 6, 7, 15, 23
    /// of a store.
    pub cause: u64,
    /// The value: the virtual address.
    pub value: u64,
    /// The second value: a guest physical address shifted right by 2.
    pub second: u64,
    /// The instruction word: 3000 (hex) where the second stage failed on the way to an entry of the guest's own tables, which the second
    /// value names.
    pub word: u64,
    /// The guest-address flag.
    pub flag: bool,
}

/// What a translation answers.
#[derive(Clone, Copy, Debug, PartialEq, Eq)]
pub enum Answer {
    /// The machine address.
    Address(u64),
    /// The number of a refusal.
    Refused(u64),
    /// A fault.
    Fault(Fault),
}

/// A page-table entry that was read.
#[derive(Clone, Copy, Debug, Default, PartialEq, Eq)]
#[repr(C)]
pub struct Read {
    /// 1 for the first stage, 2 for the second.
    pub stage: u64,
    /// The level: at the root 2, 3 or 4, by the stage's MODE; 0 at the last table.
    pub level: u64,
    /// The entry's machine address.
    pub address: u64,
    /// The entry.
    pub value: u64,
}

/// A translation: the answer, and the entries read for it. The default one has address 0 and no entry.
#[derive(Clone, Copy, Debug, Default)]
pub struct Translation(pub(crate) TranslationWords);

impl Translation {
    /// The answer.
    #[inline]
    pub fn answer(&self) -> Answer {
        let words = &self.0;
        match words.kind {
            0 => Answer::Address(words.number),
            1 => Answer::Fault(Fault {
                cause: words.number,
                value: words.value,
                second: words.second,
                word: words.word,
                flag: words.flag == 1,
            }),
            _ => Answer::Refused(words.number),
        }
    }

    /// The entries, in the order in which they were read.
    #[inline]
    pub fn reads(&self) -> &[Read] {
        self.0.list.reads()
    }
}

impl List {
    /// The places that are used.
    #[inline]
    pub(crate) fn reads(&self) -> &[Read] {
        let count = self.count.min(PLACES as u64) as usize;
        &self.places[..count]
    }
}

impl Kind {
    #[inline]
    pub(crate) fn number(self) -> u64 {
        match self {
            Kind::Fetch => 0,
            Kind::Load => 1,
            Kind::Store => 2,
        }
    }
}
