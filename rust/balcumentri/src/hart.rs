//! The hart and its events.

use crate::ffi::{self, AccessWords, GuestWords, HartWords, List, StepWords};
use crate::translation::{Access, Fault, Image, ImageMut, Read, Translation};

/// What an event came to.
#[derive(Clone, Copy, Debug, PartialEq, Eq)]
pub enum Outcome {
    /// It was done.
    Done,
    /// It trapped with a cause, and the trap was delivered.
    Trapped(u64),
    /// It was refused with a number, and the hart is as it was.
    Refused(u64),
    /// An interrupt was taken: its number, which is that of its bit in mip, also where it went to VS.
    Interrupted(u64),
}

/// What a register access came to, and the value that it answers: the old one, or 0 where it was not done.
#[derive(Clone, Copy, Debug, PartialEq, Eq)]
pub struct Accessed {
    /// Done, trapped or refused.
    pub outcome: Outcome,
    /// The value answered.
    pub value: u64,
}

/// What a hypervisor load or store came to, the value that it loaded, and the entries read for it.
#[derive(Clone, Copy, Debug)]
pub struct GuestAccessed {
    /// Done, trapped or refused.
    pub outcome: Outcome,
    /// The value loaded, extended to 64 bits; 0 of a store, and where it was not done.
    pub value: u64,
    list: List,
}

impl GuestAccessed {
    /// The entries, in the order in which they were read.
    pub fn reads(&self) -> &[Read] {
        self.list.reads()
    }
}

/// A hart: V, privilege, pc and the registers. An event leaves the next hart in its place.
///
/// ```
/// use balcumentri::{Hart, Outcome};
///
/// let mut hart = Hart::new(0, 3, 0x1000);
/// assert_eq!(hart.ecall(), Outcome::Trapped(11));
/// assert_eq!(hart.register(0x341), Some(0x1000));
/// assert_eq!(hart.read(0x342, 0x3420_2573).value, 11);
/// ```
///
/// A register access, a return, WFI, a fence and a hypervisor load or store take the word of their instruction: its 32 bits, as
/// they were recorded. Where the event traps with cause 2 or 22 the word is the trap's value, which mtval, stval or vstval then
/// holds; else it is not looked at. It need not fit the event, since nothing decodes it.
///
/// ```
/// use balcumentri::{Hart, Outcome};
///
/// let mut hart = Hart::new(1, 0, 0x1000); // VU
/// assert!(hart.put_register(0x302, 1 << 22)); // medeleg: virtual instructions go to HS
/// assert_eq!(hart.wfi(0x1050_0073), Outcome::Trapped(22));
/// assert_eq!(hart.read(0x143, 0x1430_2573).value, 0x1050_0073); // stval
/// ```
#[derive(Clone, Copy, Debug, PartialEq, Eq)]
pub struct Hart {
    words: HartWords,
}

impl Hart {
    /// A hart in a mode, each register with what a write of 0 leaves. Any numbers are taken; see [`Hart::passes`].
    pub fn new(v: u64, privilege: u64, pc: u64) -> Self {
        Hart {
            words: ffi::reset(v, privilege, pc),
        }
    }

    /// The virtualization mode V.
    pub fn v(&self) -> u64 {
        self.words[0]
    }

    /// The privilege: 0 U, 1 S, 3 M.
    pub fn privilege(&self) -> u64 {
        self.words[1]
    }

    /// The program counter.
    pub fn pc(&self) -> u64 {
        self.words[2]
    }

    /// What the stored register with a number holds.
    pub fn register(&self, number: u64) -> Option<u64> {
        index(number).map(|i| self.words[i])
    }

    /// Gives the stored register with a number exactly this value, by no write rule. False where there is none.
    ///
    /// ```
    /// let mut hart = balcumentri::Hart::new(0, 3, 0);
    /// assert!(hart.put_register(0x180, 7));
    /// assert!(!hart.put_register(0x100, 7));
    /// ```
    pub fn put_register(&mut self, number: u64, value: u64) -> bool {
        let found = index(number);
        if let Some(i) = found {
            self.words[i] = value;
        }
        found.is_some()
    }

    /// The numbers of the stored registers, rising, each with what it holds.
    pub fn registers(&self) -> impl Iterator<Item = (u64, u64)> + '_ {
        (0..ffi::KEPT).map(|place| (ffi::number(place), self.words[3 + place]))
    }

    /// Check 2: whether the model takes the hart.
    pub fn passes(&self) -> bool {
        ffi::passes(&self.words)
    }

    /// The translation of an access over an image.
    #[inline]
    pub fn translate(&self, image: Image<'_>, access: Access) -> Translation {
        let mut translation = Translation::default();
        self.translate_into(image, access, &mut translation);
        translation
    }

    /// The same, written over a translation that the caller keeps: for many in a row, since nothing is copied.
    #[inline]
    pub fn translate_into(&self, image: Image<'_>, access: Access, out: &mut Translation) {
        let Access {
            kind,
            address,
            width,
        } = access;
        ffi::translate_into(
            &self.words,
            image,
            kind.number(),
            address,
            width,
            &mut out.0,
        );
    }

    /// Reads the register with a number.
    pub fn read(&mut self, number: u64, word: u32) -> Accessed {
        self.accessed(ffi::read(&self.words, number, word))
    }

    /// Writes it.
    pub fn write(&mut self, number: u64, value: u64, word: u32) -> Accessed {
        self.accessed(ffi::write(&self.words, number, value, word))
    }

    /// Sets bits of it, if the access writes.
    pub fn set(&mut self, number: u64, value: u64, writes: bool, word: u32) -> Accessed {
        self.accessed(ffi::set(&self.words, number, value, writes, word))
    }

    /// Clears bits of it, if the access writes.
    pub fn clear(&mut self, number: u64, value: u64, writes: bool, word: u32) -> Accessed {
        self.accessed(ffi::clear(&self.words, number, value, writes, word))
    }

    /// A trap request.
    pub fn trap(&mut self, trap: Fault) -> Outcome {
        let Fault {
            cause,
            value,
            second,
            word,
            flag,
        } = trap;
        self.stepped(ffi::trap(&self.words, cause, value, second, word, flag))
    }

    /// ECALL.
    pub fn ecall(&mut self) -> Outcome {
        self.stepped(ffi::ecall(&self.words))
    }

    /// EBREAK.
    pub fn ebreak(&mut self) -> Outcome {
        self.stepped(ffi::ebreak(&self.words))
    }

    /// MRET.
    pub fn mret(&mut self, word: u32) -> Outcome {
        self.stepped(ffi::mret(&self.words, word))
    }

    /// SRET.
    pub fn sret(&mut self, word: u32) -> Outcome {
        self.stepped(ffi::sret(&self.words, word))
    }

    /// WFI.
    pub fn wfi(&mut self, word: u32) -> Outcome {
        self.stepped(ffi::wfi(&self.words, word))
    }

    /// SFENCE.VMA.
    pub fn sfence_vma(&mut self, word: u32) -> Outcome {
        self.stepped(ffi::sfence_vma(&self.words, word))
    }

    /// HFENCE.VVMA.
    pub fn hfence_vvma(&mut self, word: u32) -> Outcome {
        self.stepped(ffi::hfence_vvma(&self.words, word))
    }

    /// HFENCE.GVMA.
    pub fn hfence_gvma(&mut self, word: u32) -> Outcome {
        self.stepped(ffi::hfence_gvma(&self.words, word))
    }

    /// HLV: loads bytes at a guest's virtual address, translated as V=1 with privilege hstatus.SPVP. They are sign-extended to 64
    /// bits, or zero-extended. A fault is delivered as a trap.
    ///
    /// ```
    /// use balcumentri::{Hart, Image, Outcome};
    ///
    /// let mut bytes = vec![0; 0x1000];
    /// bytes[0x10..0x12].copy_from_slice(&[0xfe, 0xff]);
    /// let image = Image { base: 0x8000_0000, bytes: &bytes };
    /// let mut hart = Hart::new(0, 1, 0x1000); // HS; vsatp and hgatp are Bare
    /// let loaded = hart.hlv(image, 2, true, 0x8000_0010, 0x6405_4573); // HLV.H
    /// assert_eq!((loaded.outcome, loaded.value as i64), (Outcome::Done, -2));
    /// assert_eq!(hart.hlv(image, 2, false, 0x8000_0010, 0x6415_4573).value, 0xfffe); // HLV.HU
    /// assert_eq!(hart.pc(), 0x1008);
    ///
    /// let outside = hart.hlv(image, 8, true, 0x8000_1000, 0x6c05_4573); // HLV.D
    /// assert_eq!((outside.outcome, outside.value), (Outcome::Trapped(5), 0));
    /// ```
    pub fn hlv(
        &mut self,
        image: Image<'_>,
        width: u64,
        signed: bool,
        address: u64,
        word: u32,
    ) -> GuestAccessed {
        self.reached(ffi::hlv(&self.words, image, width, signed, address, word))
    }

    /// HLVX: the same for 2 or 4 bytes, zero-extended, of pages that need X in place of R.
    ///
    /// ```
    /// use balcumentri::{Hart, Image, Outcome};
    ///
    /// let mut bytes = vec![0; 0x5000];
    /// bytes[0] = 0x59; // a leaf of 1 GiB: V, X, U, A
    /// bytes[0x4000] = 0x73;
    /// let image = Image { base: 0, bytes: &bytes };
    /// let mut hart = Hart::new(0, 1, 0x1000); // HS
    /// assert!(hart.put_register(0x680, 8 << 60)); // hgatp: Sv39x4, root at 0
    /// let loaded = hart.hlvx(image, 4, 0x4000, 0x6835_4573); // HLVX.WU
    /// assert_eq!((loaded.outcome, loaded.value), (Outcome::Done, 0x73));
    /// assert_eq!(loaded.reads().len(), 1);
    /// assert_eq!(hart.hlv(image, 4, false, 0x4000, 0x6815_4573).outcome, Outcome::Trapped(21)); // HLV.WU
    /// ```
    pub fn hlvx(&mut self, image: Image<'_>, width: u64, address: u64, word: u32) -> GuestAccessed {
        self.reached(ffi::hlvx(&self.words, image, width, address, word))
    }

    /// HSV: stores the low bytes of a value, little-endian, at a guest's virtual address, translated as of [`Hart::hlv`]. It is the
    /// one call that writes the image, and writes it only where it is done.
    ///
    /// ```
    /// use balcumentri::{Hart, ImageMut, Outcome};
    ///
    /// let mut bytes = vec![0; 0x1000];
    /// let mut image = ImageMut { base: 0x8000_0000, bytes: &mut bytes };
    /// let mut hart = Hart::new(0, 1, 0x1000); // HS; vsatp and hgatp are Bare
    /// let stored = hart.hsv(&mut image, 4, 0x8000_0010, 0x1234_5678, 0x6ab5_4073); // HSV.W
    /// assert_eq!(stored.outcome, Outcome::Done);
    /// let loaded = hart.hlv(image.as_image(), 2, false, 0x8000_0012, 0x6415_4573); // HLV.HU
    /// assert_eq!(loaded.value, 0x1234);
    /// assert_eq!(bytes[0x10..0x15], [0x78, 0x56, 0x34, 0x12, 0]);
    /// ```
    pub fn hsv(
        &mut self,
        image: &mut ImageMut<'_>,
        width: u64,
        address: u64,
        value: u64,
        word: u32,
    ) -> GuestAccessed {
        self.reached(ffi::hsv(&self.words, image, width, address, value, word))
    }

    /// Takes the interrupt that is due. Done: none was, and the hart is as it was.
    ///
    /// ```
    /// use balcumentri::{Hart, Outcome};
    ///
    /// let mut hart = Hart::new(0, 0, 0x1000); // U
    /// hart.put_register(0x304, 0x80); // mie: machine timer interrupts
    /// assert_eq!(hart.interrupt(), Outcome::Done);
    /// hart.put_register(0x344, 0x80); // mip: one is pending
    /// assert_eq!(hart.interrupt(), Outcome::Interrupted(7));
    /// assert_eq!(hart.read(0x342, 0x3420_2573).value, 1 << 63 | 7); // mcause
    /// ```
    pub fn interrupt(&mut self) -> Outcome {
        self.stepped(ffi::interrupt(&self.words))
    }

    fn stepped(&mut self, result: StepWords) -> Outcome {
        self.words.copy_from_slice(&result[..ffi::HART]);
        outcome(result[ffi::HART], result[ffi::HART + 1])
    }

    fn reached(&mut self, result: GuestWords) -> GuestAccessed {
        self.words = result.hart;
        GuestAccessed {
            outcome: outcome(result.kind, result.number),
            value: result.value,
            list: result.list,
        }
    }

    fn accessed(&mut self, result: AccessWords) -> Accessed {
        self.words.copy_from_slice(&result[..ffi::HART]);
        Accessed {
            outcome: outcome(result[ffi::HART], result[ffi::HART + 1]),
            value: result[ffi::STEP],
        }
    }
}

fn outcome(kind: u64, number: u64) -> Outcome {
    match kind {
        0 => Outcome::Done,
        1 => Outcome::Trapped(number),
        3 => Outcome::Interrupted(number),
        _ => Outcome::Refused(number),
    }
}

/// Where a stored register stands among a hart's words.
fn index(number: u64) -> Option<usize> {
    crate::place(number).map(|place| 3 + place)
}

#[cfg(test)]
mod tests {
    use super::*;
    use crate::{Answer, Kind};

    const EMPTY: Image<'static> = Image {
        base: 0,
        bytes: &[],
    };

    /// A store over no bytes.
    fn hsv(hart: &mut Hart, word: u32) -> Outcome {
        let (base, bytes): (u64, &mut [u8]) = (0, &mut []);
        hart.hsv(&mut ImageMut { base, bytes }, 8, 0, 0, word)
            .outcome
    }

    /// Every event that takes a word, on a number that no register has, or on an empty image.
    const WORDED: [fn(&mut Hart, u32) -> Outcome; 13] = [
        |hart, word| hart.read(0xfff, word).outcome,
        |hart, word| hart.write(0xfff, 1, word).outcome,
        |hart, word| hart.set(0xfff, 1, true, word).outcome,
        |hart, word| hart.clear(0xfff, 1, false, word).outcome,
        Hart::mret,
        Hart::sret,
        Hart::wfi,
        Hart::sfence_vma,
        Hart::hfence_vvma,
        Hart::hfence_gvma,
        |hart, word| hart.hlv(EMPTY, 8, true, 0, word).outcome,
        |hart, word| hart.hlvx(EMPTY, 4, 0, word).outcome,
        hsv,
    ];

    #[test]
    fn a_trap_has_the_word_as_its_value() {
        for (place, event) in WORDED.iter().enumerate() {
            for word in [0, 0x8000_0001, u32::MAX] {
                let mut hart = Hart::new(0, 0, 0);
                assert!(hart.put_register(0x343, 7));
                assert_eq!(event(&mut hart, word), Outcome::Trapped(2), "{place}");
                assert_eq!(hart.register(0x343), Some(word.into()), "{place}");
            }
        }
    }

    #[test]
    fn an_event_that_is_refused_keeps_the_value() {
        for event in WORDED {
            let mut hart = Hart::new(0, 0, 2);
            assert_eq!(event(&mut hart, 7), Outcome::Refused(2));
            assert_eq!(hart, Hart::new(0, 0, 2));
        }
    }
    const BASE: u64 = 0x8000_0000;

    /// The second stage's root with a leaf of 1 GiB at the image's base, and a page behind it.
    fn bytes(leaf: u64) -> Vec<u8> {
        let mut bytes = vec![0; 0x5000];
        bytes[..8].copy_from_slice(&(BASE >> 2 | leaf).to_le_bytes());
        bytes
    }

    /// A hart in HS whose guest's second stage is on.
    fn hypervisor() -> Hart {
        let mut hart = Hart::new(0, 1, 0x1000);
        assert!(hart.put_register(0x680, 8 << 60 | BASE >> 12));
        hart
    }

    #[test]
    fn every_width_is_stored_and_loaded_back() {
        let mut bytes = bytes(0xdf);
        let before = bytes.clone();
        let mut image = ImageMut {
            base: BASE,
            bytes: &mut bytes,
        };
        let value = 0xf0e1_d2c3_b4a5_9687_u64;
        for width in [1, 2, 4, 8] {
            let (mut hart, at) = (hypervisor(), 0x4000 + 8 * width);
            let stored = hart.hsv(&mut image, width, at, value, 0);
            assert_eq!((stored.outcome, stored.value), (Outcome::Done, 0));
            let bits = 64 - 8 * width;
            let (zeros, signs) = (value << bits >> bits, (value << bits) as i64 >> bits);
            let loaded = |signed| {
                hypervisor()
                    .hlv(image.as_image(), width, signed, at, 0)
                    .value
            };
            assert_eq!([loaded(false), loaded(true)], [zeros, signs as u64]);
            assert_eq!(hart.pc(), 0x1004);
            let root = Read {
                stage: 2,
                level: 2,
                address: BASE,
                value: BASE >> 2 | 0xdf,
            };
            assert_eq!(stored.reads(), [root]);
        }
        let changed = bytes.iter().zip(&before).filter(|(new, old)| new != old);
        assert_eq!(changed.count(), 1 + 2 + 4 + 8);
    }

    #[test]
    fn what_is_not_done_writes_nothing() {
        let store = |hart: &mut Hart, leaf, width, address| {
            let mut bytes = bytes(leaf);
            let before = bytes.clone();
            let mut image = ImageMut {
                base: BASE,
                bytes: &mut bytes,
            };
            let stored = hart.hsv(&mut image, width, address, !0, 7);
            assert_eq!(stored.value, 0);
            assert_eq!(bytes, before);
            (stored.outcome, stored.reads().len())
        };
        let faults = |leaf, width, address| store(&mut hypervisor(), leaf, width, address);
        assert_eq!(faults(0xdb, 8, 0x4000), (Outcome::Trapped(23), 1));
        assert_eq!(faults(0xdf, 8, 0x5000), (Outcome::Trapped(7), 1));
        assert_eq!(faults(0xdf, 8, 0x4001), (Outcome::Trapped(6), 0));
        assert_eq!(faults(0xdf, 3, 0x4000), (Outcome::Refused(3), 0));
        for (v, privilege, cause) in [(1, 1, 22), (1, 0, 22), (0, 0, 2)] {
            let mut hart = Hart::new(v, privilege, 0);
            let stored = store(&mut hart, 0xdf, 8, BASE + 0x4000);
            assert_eq!(stored, (Outcome::Trapped(cause), 0));
            assert_eq!(hart.register(0x343), Some(7));
        }
    }

    #[test]
    fn a_fault_is_delivered() {
        let bytes = bytes(0xd9);
        let image = Image {
            base: BASE,
            bytes: &bytes,
        };
        let mut hart = hypervisor();
        let loaded = hart.hlv(image, 8, true, 0x4008, 0);
        assert_eq!((loaded.outcome, loaded.value), (Outcome::Trapped(21), 0));
        assert_eq!(loaded.reads().len(), 1);
        let held = [0x341, 0x342, 0x343, 0x34b].map(|number| hart.register(number));
        assert_eq!(held, [0x1000, 21, 0x4008, 0x1002].map(Some));
        let loaded = hypervisor().hlvx(image, 4, 0x4008, 0);
        assert_eq!((loaded.outcome, loaded.value), (Outcome::Done, 0));
        for width in [1, 8] {
            let refused = hypervisor().hlvx(image, width, 0x4008, 0);
            assert_eq!(refused.outcome, Outcome::Refused(3));
        }
    }

    /// Sv57 over Sv57x4 in one page: entry 0 is the second stage's pointer to the page, entry 2 its leaf for the guest page 2000 (hex);
    /// entry 3 is the first stage's pointer to that guest page, and entry 4 its leaf.
    #[test]
    fn the_deepest_walk_fills_the_list() {
        let mut bytes = vec![0; 0x1000];
        let page = BASE >> 2;
        for (index, entry) in [(0, page | 1), (2, page | 0xdf), (3, 0x801), (4, 0x8cf)] {
            bytes[8 * index..8 * index + 8].copy_from_slice(&entry.to_le_bytes());
        }
        let mut image = ImageMut {
            base: BASE,
            bytes: &mut bytes,
        };
        let mut hart = Hart::new(0, 1, 0);
        let mut guest = Hart::new(1, 1, 0);
        for hart in [&mut hart, &mut guest] {
            assert!(hart.put_register(0x280, 10 << 60 | 2));
            assert!(hart.put_register(0x680, 10 << 60 | BASE >> 12));
            assert!(hart.put_register(0x600, 0x2_0000_0100)); // SPVP
            assert!(hart.passes());
        }
        let address = 0x3_0180_c060_4028;
        let load = Access {
            kind: Kind::Load,
            address,
            width: 8,
        };
        let translation = guest.translate(image.as_image(), load);
        assert_eq!(translation.answer(), Answer::Address(BASE + 0x28));
        let places = (0..5).rev().map(|level| (1, level)).chain([(0, 0)]);
        let expected = places.flat_map(|own| (0..5).rev().map(|level| (2, level)).chain([own]));
        let read = translation.reads().iter();
        assert!(read
            .map(|read| (read.stage, read.level))
            .eq(expected.take(35)));
        assert_eq!(translation.reads().len(), 35);
        let stored = hart.hsv(&mut image, 8, address, 7, 0);
        assert_eq!((stored.outcome, stored.reads().len()), (Outcome::Done, 35));
        let loaded = hart.hlv(image.as_image(), 8, false, address, 0);
        assert_eq!((loaded.outcome, loaded.value), (Outcome::Done, 7));
        assert_eq!(loaded.reads(), translation.reads());
    }

    /// The guest's root is on a page that the second stage does not let the hart read: the fault is the access's own.
    #[test]
    fn the_fault_of_a_guest_entry_is_that_of_the_access() {
        let bytes = bytes(0xcf);
        let image = Image {
            base: BASE,
            bytes: &bytes,
        };
        let mut hypervisor = hypervisor();
        assert!(hypervisor.put_register(0x280, 8 << 60 | 4));
        let mut guest = Hart::new(1, 1, 0x1000);
        for (number, value) in hypervisor.registers() {
            assert!(guest.put_register(number, value));
        }
        for (kind, cause) in [(Kind::Fetch, 20), (Kind::Load, 21), (Kind::Store, 23)] {
            let access = Access {
                kind,
                address: 8,
                width: 4,
            };
            let fault = Fault {
                cause,
                value: 8,
                second: 0x1000,
                word: 0x3000,
                flag: true,
            };
            let translation = guest.translate(image, access);
            assert_eq!(translation.answer(), Answer::Fault(fault));
            let mut hart = guest;
            assert_eq!(hart.trap(fault), Outcome::Trapped(cause));
            assert_eq!(hart.register(0x34a), Some(0x3000));
        }
        let mut hart = hypervisor;
        let loaded = hart.hlvx(image, 4, 8, 0);
        assert_eq!(loaded.outcome, Outcome::Trapped(21));
        let mut bytes = bytes;
        let mut image = ImageMut {
            base: BASE,
            bytes: &mut bytes,
        };
        let stored = hypervisor.hsv(&mut image, 4, 8, 0, 0);
        assert_eq!(stored.outcome, Outcome::Trapped(23));
    }
}
