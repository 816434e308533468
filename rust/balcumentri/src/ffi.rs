//! The C face, with the lengths of its slices as types. The only module with `unsafe`.
//!
//! Each call's slices have the lengths that the face asks for and do not overlap, so each is taken and writes its result; the
//! code that it returns is looked at all the same.
#![allow(unsafe_code)]

#[cfg(test)]
mod agreement;

use crate::translation::{Image, ImageMut, Read};

/// How many registers a hart keeps.
pub const KEPT: usize = 31;
/// How many words a hart, an event's result and a register access's take.
pub const HART: usize = 3 + KEPT;
pub const STEP: usize = HART + 2;
pub const ACCESS: usize = STEP + 1;
/// How many places the list of reads has.
pub const PLACES: usize = 35;

/// A hart's words.
pub type HartWords = [u64; HART];
/// An event's result.
pub type StepWords = [u64; STEP];
/// A register access's result.
pub type AccessWords = [u64; ACCESS];
/// A list of reads: how many there are, and its places.
#[derive(Clone, Copy, Debug)]
#[repr(C)]
pub struct List {
    pub count: u64,
    pub places: [Read; PLACES],
}
impl Default for List {
    fn default() -> Self {
        List {
            count: 0,
            places: [Read::default(); PLACES],
        }
    }
}
/// A translation's result, by name.
#[derive(Clone, Copy, Debug, Default)]
#[repr(C)]
pub struct TranslationWords {
    pub kind: u64,
    pub number: u64,
    pub value: u64,
    pub second: u64,
    pub word: u64,
    pub flag: u64,
    pub list: List,
}
/// A hypervisor load's or store's result, by name.
#[derive(Clone, Copy)]
#[repr(C)]
pub struct GuestWords {
    pub hart: HartWords,
    pub kind: u64,
    pub number: u64,
    pub value: u64,
    pub list: List,
}

const LIST: usize = 1 + 4 * PLACES;
const TRANSLATION_WORDS: usize = 6 + LIST;
const GUEST: usize = ACCESS + LIST;
const _: () = assert!(size_of::<TranslationWords>() == 8 * TRANSLATION_WORDS);
const _: () = assert!(size_of::<GuestWords>() == 8 * GUEST);

/// A call of the face that takes a hart alone.
type Plain = unsafe extern "C" fn(*const u64, usize, *mut u64, usize) -> u64;
/// A call of the face that takes a hart and the word of an instruction.
type Worded = unsafe extern "C" fn(*const u64, usize, u32, *mut u64, usize) -> u64;

/// What a call returns that has written its result.
const WRITTEN: u64 = 0;

extern "C" {
    fn balcumentri_reset(v: u64, privilege: u64, pc: u64, out: *mut u64, size: usize) -> u64;
    fn balcumentri_passes(hart: *const u64, words: usize, out: *mut u64, size: usize) -> u64;
    fn balcumentri_translate(
        hart: *const u64,
        words: usize,
        base: u64,
        bytes: *const u8,
        length: usize,
        kind: u64,
        address: u64,
        width: u64,
        out: *mut u64,
        size: usize,
    ) -> u64;
    fn balcumentri_hlv(
        hart: *const u64,
        words: usize,
        base: u64,
        bytes: *const u8,
        length: usize,
        width: u64,
        is_signed: bool,
        address: u64,
        word: u32,
        out: *mut u64,
        size: usize,
    ) -> u64;
    fn balcumentri_hlvx(
        hart: *const u64,
        words: usize,
        base: u64,
        bytes: *const u8,
        length: usize,
        width: u64,
        address: u64,
        word: u32,
        out: *mut u64,
        size: usize,
    ) -> u64;
    fn balcumentri_hsv(
        hart: *const u64,
        words: usize,
        base: u64,
        bytes: *mut u8,
        length: usize,
        width: u64,
        address: u64,
        value: u64,
        word: u32,
        out: *mut u64,
        size: usize,
    ) -> u64;
    fn balcumentri_read(
        hart: *const u64,
        words: usize,
        number: u64,
        word: u32,
        out: *mut u64,
        size: usize,
    ) -> u64;
    fn balcumentri_write(
        hart: *const u64,
        words: usize,
        number: u64,
        value: u64,
        word: u32,
        out: *mut u64,
        size: usize,
    ) -> u64;
    fn balcumentri_set(
        hart: *const u64,
        words: usize,
        number: u64,
        value: u64,
        writes: bool,
        word: u32,
        out: *mut u64,
        size: usize,
    ) -> u64;
    fn balcumentri_clear(
        hart: *const u64,
        words: usize,
        number: u64,
        value: u64,
        writes: bool,
        word: u32,
        out: *mut u64,
        size: usize,
    ) -> u64;
    fn balcumentri_trap(
        hart: *const u64,
        words: usize,
        cause: u64,
        value: u64,
        second: u64,
        word: u64,
        flag: bool,
        out: *mut u64,
        size: usize,
    ) -> u64;
    fn balcumentri_ecall(hart: *const u64, words: usize, out: *mut u64, size: usize) -> u64;
    fn balcumentri_ebreak(hart: *const u64, words: usize, out: *mut u64, size: usize) -> u64;
    fn balcumentri_mret(
        hart: *const u64,
        words: usize,
        word: u32,
        out: *mut u64,
        size: usize,
    ) -> u64;
    fn balcumentri_sret(
        hart: *const u64,
        words: usize,
        word: u32,
        out: *mut u64,
        size: usize,
    ) -> u64;
    fn balcumentri_wfi(
        hart: *const u64,
        words: usize,
        word: u32,
        out: *mut u64,
        size: usize,
    ) -> u64;
    fn balcumentri_sfence_vma(
        hart: *const u64,
        words: usize,
        word: u32,
        out: *mut u64,
        size: usize,
    ) -> u64;
    fn balcumentri_hfence_vvma(
        hart: *const u64,
        words: usize,
        word: u32,
        out: *mut u64,
        size: usize,
    ) -> u64;
    fn balcumentri_hfence_gvma(
        hart: *const u64,
        words: usize,
        word: u32,
        out: *mut u64,
        size: usize,
    ) -> u64;
    fn balcumentri_interrupt(hart: *const u64, words: usize, out: *mut u64, size: usize) -> u64;
    fn balcumentri_place(number: u64) -> u64;
    fn balcumentri_number(place: u64) -> u64;
}

/// Looks at what a call returned, so that no words are taken for a result that are none.
#[inline]
fn expect_written(code: u64) {
    if code != WRITTEN {
        not_written(code);
    }
}

#[cold]
#[inline(never)]
fn not_written(code: u64) -> ! {
    panic!("the linked library is not the one declared here: a call whose slices and kind are right returned {code}")
}

/// The words that a call writes, which is lent room for so many.
fn result<const N: usize>(call: impl FnOnce(*mut u64, usize) -> u64) -> [u64; N] {
    let mut out = [0; N];
    expect_written(call(out.as_mut_ptr(), out.len()));
    out
}

/// The same of a call that is lent a hart, too.
fn of_hart<const N: usize>(
    hart: &HartWords,
    call: impl FnOnce(*const u64, usize, *mut u64, usize) -> u64,
) -> [u64; N] {
    result(|out, size| call(hart.as_ptr(), hart.len(), out, size))
}

/// The result of a call that takes a hart alone.
fn plain<const N: usize>(call: Plain, hart: &HartWords) -> [u64; N] {
    // SAFETY: hart and out are lent for the call, each with its own length; out is a new local, so they do not overlap. call is one
    // of the functions declared above, all with these four parameters.
    of_hart(hart, |h, words, out, size| unsafe {
        call(h, words, out, size)
    })
}

/// The result of a call that takes a hart and an instruction's word.
fn worded<const N: usize>(call: Worded, hart: &HartWords, word: u32) -> [u64; N] {
    // SAFETY: as in `plain`, with these five parameters.
    of_hart(hart, |h, words, out, size| unsafe {
        call(h, words, word, out, size)
    })
}

/// A hart whose registers hold what a write of 0 leaves.
pub fn reset(v: u64, privilege: u64, pc: u64) -> HartWords {
    // SAFETY: out is lent for the call, with its own length.
    result(|out, size| unsafe { balcumentri_reset(v, privilege, pc, out, size) })
}

/// Check 2.
pub fn passes(hart: &HartWords) -> bool {
    let [passes] = plain(balcumentri_passes, hart);
    passes == 1
}

/// The translation of an access, written into the words lent; kind 0 is a fetch, 1 a load, 2 a store.
#[inline]
pub fn translate_into(
    hart: &HartWords,
    image: Image<'_>,
    kind: u64,
    address: u64,
    width: u64,
    out: &mut TranslationWords,
) {
    let words: *mut TranslationWords = out;
    // SAFETY: hart, the bytes and out are lent for the call, each with its own length; out is lent mutably, so it overlaps neither.
    // It is so many words by its layout and the assertion on its size, and any words are a value of it.
    let code = unsafe {
        balcumentri_translate(
            hart.as_ptr(),
            hart.len(),
            image.base,
            image.bytes.as_ptr(),
            image.bytes.len(),
            kind,
            address,
            width,
            words.cast(),
            TRANSLATION_WORDS,
        )
    };
    expect_written(code);
}

/// What a hypervisor load or store writes, which is lent a hart and room for its result.
fn of_guest(
    hart: &HartWords,
    call: impl FnOnce(*const u64, usize, *mut u64, usize) -> u64,
) -> GuestWords {
    let mut out = GuestWords {
        hart: [0; HART],
        kind: 0,
        number: 0,
        value: 0,
        list: List::default(),
    };
    let words: *mut GuestWords = &mut out;
    expect_written(call(hart.as_ptr(), hart.len(), words.cast(), GUEST));
    out
}

/// HLV.
pub fn hlv(
    hart: &HartWords,
    image: Image<'_>,
    width: u64,
    signed: bool,
    address: u64,
    word: u32,
) -> GuestWords {
    let Image { base, bytes } = image;
    let (at, length) = (bytes.as_ptr(), bytes.len());
    // SAFETY: hart, the bytes and out are lent for the call, each with its own length; out is a local of `of_guest`, so it overlaps
    // neither. It is so many words by its layout and the assertion on its size, and any words are a value of it.
    of_guest(hart, |h, words, out, size| unsafe {
        balcumentri_hlv(
            h, words, base, at, length, width, signed, address, word, out, size,
        )
    })
}

/// HLVX.
pub fn hlvx(hart: &HartWords, image: Image<'_>, width: u64, address: u64, word: u32) -> GuestWords {
    let Image { base, bytes } = image;
    let (at, length) = (bytes.as_ptr(), bytes.len());
    // SAFETY: as in `hlv`.
    of_guest(hart, |h, words, out, size| unsafe {
        balcumentri_hlvx(h, words, base, at, length, width, address, word, out, size)
    })
}

/// HSV.
pub fn hsv(
    hart: &HartWords,
    image: &mut ImageMut<'_>,
    width: u64,
    address: u64,
    value: u64,
    word: u32,
) -> GuestWords {
    let ImageMut { base, bytes } = image;
    let (at, length) = (bytes.as_mut_ptr(), bytes.len());
    // SAFETY: as in `hlv`; the bytes are lent mutably, so they don't overlap the hart either.
    of_guest(hart, |h, words, out, size| unsafe {
        balcumentri_hsv(
            h, words, *base, at, length, width, address, value, word, out, size,
        )
    })
}

/// Reads a register.
pub fn read(hart: &HartWords, number: u64, word: u32) -> AccessWords {
    // SAFETY: as in `plain`.
    of_hart(hart, |h, words, out, size| unsafe {
        balcumentri_read(h, words, number, word, out, size)
    })
}

/// Writes a register.
pub fn write(hart: &HartWords, number: u64, value: u64, word: u32) -> AccessWords {
    // SAFETY: as in `plain`.
    of_hart(hart, |h, words, out, size| unsafe {
        balcumentri_write(h, words, number, value, word, out, size)
    })
}

/// Sets bits of a register.
pub fn set(hart: &HartWords, number: u64, value: u64, writes: bool, word: u32) -> AccessWords {
    // SAFETY: as in `plain`.
    of_hart(hart, |h, words, out, size| unsafe {
        balcumentri_set(h, words, number, value, writes, word, out, size)
    })
}

/// Clears bits of a register.
pub fn clear(hart: &HartWords, number: u64, value: u64, writes: bool, word: u32) -> AccessWords {
    // SAFETY: as in `plain`.
    of_hart(hart, |h, words, out, size| unsafe {
        balcumentri_clear(h, words, number, value, writes, word, out, size)
    })
}

/// A trap request.
pub fn trap(
    hart: &HartWords,
    cause: u64,
    value: u64,
    second: u64,
    word: u64,
    flag: bool,
) -> StepWords {
    // SAFETY: as in `plain`.
    of_hart(hart, |h, words, out, size| unsafe {
        balcumentri_trap(h, words, cause, value, second, word, flag, out, size)
    })
}

/// ECALL.
pub fn ecall(hart: &HartWords) -> StepWords {
    plain(balcumentri_ecall, hart)
}

/// EBREAK.
pub fn ebreak(hart: &HartWords) -> StepWords {
    plain(balcumentri_ebreak, hart)
}

/// MRET.
pub fn mret(hart: &HartWords, word: u32) -> StepWords {
    worded(balcumentri_mret, hart, word)
}

/// SRET.
pub fn sret(hart: &HartWords, word: u32) -> StepWords {
    worded(balcumentri_sret, hart, word)
}

/// WFI.
pub fn wfi(hart: &HartWords, word: u32) -> StepWords {
    worded(balcumentri_wfi, hart, word)
}

/// SFENCE.VMA.
pub fn sfence_vma(hart: &HartWords, word: u32) -> StepWords {
    worded(balcumentri_sfence_vma, hart, word)
}

/// HFENCE.VVMA.
pub fn hfence_vvma(hart: &HartWords, word: u32) -> StepWords {
    worded(balcumentri_hfence_vvma, hart, word)
}

/// HFENCE.GVMA.
pub fn hfence_gvma(hart: &HartWords, word: u32) -> StepWords {
    worded(balcumentri_hfence_gvma, hart, word)
}

/// Takes the interrupt that is due, if one is.
pub fn interrupt(hart: &HartWords) -> StepWords {
    plain(balcumentri_interrupt, hart)
}

/// The place of the register that a hart keeps with a number, or [`KEPT`].
pub fn place(number: u64) -> usize {
    // SAFETY: numbers alone go in and out.
    unsafe { balcumentri_place(number) as usize }
}

/// The number of the register at a place, or 4096.
pub fn number(place: usize) -> u64 {
    // SAFETY: numbers alone go in and out.
    unsafe { balcumentri_number(place as u64) }
}
