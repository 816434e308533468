//! The C calls on prepared words, without the wrapper: what is left of the wrapper's time is its own.
#![allow(unsafe_code)]

use crate::registers::{self, Form};
use balcumentri::{Access, Hart, Image, Kind};

/// How many words a hart takes.
pub const HART_WORDS: usize = 34;
/// How many words a register access's result takes.
pub const ACCESS_WORDS: usize = HART_WORDS + 3;
/// How many words a translation takes.
pub const TRANSLATION_WORDS: usize = 147;

/// A hart's words.
pub type HartWords = [u64; HART_WORDS];
/// A register access's result.
pub type AccessWords = [u64; ACCESS_WORDS];
/// A translation's words.
pub type TranslationWords = [u64; TRANSLATION_WORDS];

// The crate balcumentri links the library.
extern "C" {
    fn balcumentri_translate(
        hart: *const u64,
        words: usize,
        base: u64,
        bytes: *const u8,
        length: usize,
        kind: u64,
        address: u64,
        width: u64,
        out: *mut u64,
        size: usize,
    ) -> u64;
    fn balcumentri_read(
        hart: *const u64,
        words: usize,
        number: u64,
        word: u32,
        out: *mut u64,
        size: usize,
    ) -> u64;
    fn balcumentri_write(
        hart: *const u64,
        words: usize,
        number: u64,
        value: u64,
        word: u32,
        out: *mut u64,
        size: usize,
    ) -> u64;
    fn balcumentri_set(
        hart: *const u64,
        words: usize,
        number: u64,
        value: u64,
        writes: bool,
        word: u32,
        out: *mut u64,
        size: usize,
    ) -> u64;
    fn balcumentri_clear(
        hart: *const u64,
        words: usize,
        number: u64,
        value: u64,
        writes: bool,
        word: u32,
        out: *mut u64,
        size: usize,
    ) -> u64;
}

/// A hart's words, as include/balcumentri.h lists them.
pub fn words(hart: &Hart) -> HartWords {
    let mut words = [0; HART_WORDS];
    words[..3].copy_from_slice(&[hart.v(), hart.privilege(), hart.pc()]);
    for (place, word) in words[3..].iter_mut().enumerate() {
        let number = balcumentri::number(place);
        *word = number.and_then(|n| hart.register(n)).unwrap_or(0);
    }
    words
}

/// The translation of an access, written into `out`.
#[inline(always)]
pub fn translate(hart: &HartWords, image: Image<'_>, access: Access, out: &mut TranslationWords) {
    let kind = match access.kind {
        Kind::Fetch => 0,
        Kind::Load => 1,
        Kind::Store => 2,
    };
    // SAFETY: hart, the image's bytes and out are lent for the call, each with its own length; out is lent mutably, so it
    // overlaps neither.
    unsafe {
        balcumentri_translate(
            hart.as_ptr(),
            hart.len(),
            image.base,
            image.bytes.as_ptr(),
            image.bytes.len(),
            kind,
            access.address,
            access.width,
            out.as_mut_ptr(),
            out.len(),
        )
    };
}

/// A register access, written into `out`.
#[inline(always)]
pub fn access(hart: &HartWords, access: registers::Access, out: &mut AccessWords) {
    let registers::Access {
        form,
        number,
        value,
        writes,
        word,
    } = access;
    let (hart, words) = (hart.as_ptr(), hart.len());
    let (out, size) = (out.as_mut_ptr(), out.len());
    // SAFETY: hart and out are lent for the call, each with its own length; out is lent mutably, so they do not overlap.
    unsafe {
        match form {
            Form::Read => balcumentri_read(hart, words, number, word, out, size),
            Form::Write => balcumentri_write(hart, words, number, value, word, out, size),
            Form::Set => balcumentri_set(hart, words, number, value, writes, word, out, size),
            Form::Clear => balcumentri_clear(hart, words, number, value, writes, word, out, size),
        }
    };
}
