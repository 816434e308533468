//! The sides of the comparison for translations: that they answer alike, and what is timed.

use crate::call::{self, TranslationWords, TRANSLATION_WORDS};
use crate::cases::{self, Case};
use crate::plain;
use crate::timing::{Timed, COUNTED};
use balcumentri::{Access, Answer, Fault, Image, Read, Translation};
use std::hint::black_box;

/// What is timed.
#[derive(Clone, Copy, Debug, PartialEq, Eq)]
pub enum Side {
    /// Plain Rust, written over a translation that is kept.
    Plain,
    /// The proved library's C call, written over words that are kept.
    Call,
    /// The Rust wrapper, written over a translation that is kept.
    Wrapper,
    /// The Rust wrapper, with a translation by value.
    ByValue,
}

impl Timed for Case {
    const PART: &'static str = "translations";
    const HEAD: &'static str = "
answer: an address, or the causes of the faults (of fetches/loads/stores), or a refusal
C call: balcumentri_translate on words that the caller keeps
wrapper: Hart::translate_into over a translation that the caller keeps; by value: Hart::translate
instructions: of one translation, counted by callgrind

                                                 nanoseconds: median and least of the rounds   over plain Rust: median, least  instructions
case                      answer   reads   plain Rust       C call      wrapper     by value     C call    wrapper   by value  plain C call";
    type Side = Side;
    const SIDES: &'static [Side] = &[Side::Plain, Side::Call, Side::Wrapper, Side::ByValue];

    fn all() -> Vec<Case> {
        cases::cases()
    }

    fn at(place: usize) -> Option<Case> {
        cases::case(place)
    }

    fn agree(cases: &[Case]) -> Result<String, String> {
        for case in cases {
            case.agree()?;
        }
        let compared: usize = cases.iter().map(Case::accesses).sum();
        Ok(format!(
            "{compared} translations: all sides give the same answers and lists."
        ))
    }

    fn columns(&self) -> String {
        format!("{:<25} {:<8} {:>5}", self.name, self.outcome, self.reads)
    }

    fn accesses(&self) -> usize {
        self.accesses.len()
    }

    fn symbols(&self) -> [&'static str; COUNTED] {
        ["plain_translate", "balcumentri_translate"]
    }

    fn run(&self, side: Side, times: usize) {
        match side {
            Side::Plain => {
                let mut kept = plain::Translation::default();
                self.each(times, |image, access| {
                    plain::translate(black_box(&self.words), image, access, &mut kept);
                    black_box(&kept);
                });
            }
            Side::Call => {
                let mut kept = [0; TRANSLATION_WORDS];
                self.each(times, |image, access| {
                    call::translate(black_box(&self.words), image, access, &mut kept);
                    black_box(&kept);
                });
            }
            Side::Wrapper => {
                let mut kept = Translation::default();
                self.each(times, |image, access| {
                    black_box(&self.hart).translate_into(image, access, &mut kept);
                    black_box(&kept);
                });
            }
            Side::ByValue => self.each(times, |image, access| {
                black_box(&black_box(&self.hart).translate(image, access));
            }),
        }
    }
}

impl Case {
    /// Whether all sides give the same answer and list for every access: the answer and as many reads as the case says.
    fn agree(&self) -> Result<(), String> {
        let image = self.image();
        // kept over all accesses, so that nothing of one may stay in the next
        let mut plain = plain::Translation::default();
        let mut words = [!0; TRANSLATION_WORDS];
        let mut kept = Translation::default();
        for &access in &self.accesses {
            plain::translate(&self.words, image, access, &mut plain);
            call::translate(&self.words, image, access, &mut words);
            self.hart.translate_into(image, access, &mut kept);
            same(&plain, &words, &kept)
                .and_then(|()| same(&plain, &words, &self.hart.translate(image, access)))
                .map_err(|sides| format!("{}, {access:x?}: {sides}", self.name))?;
            if plain.count != self.reads || !self.outcome.is(access.kind, plain.answer) {
                return Err(format!(
                    "{}, {access:x?}: not what is meant, but {plain:x?}",
                    self.name
                ));
            }
        }
        Ok(())
    }

    #[inline(always)]
    fn each(&self, times: usize, mut translate: impl FnMut(Image<'_>, Access)) {
        let image = self.image();
        for _ in 0..times {
            for access in &self.accesses {
                translate(*black_box(&image), *black_box(access));
            }
        }
    }
}

/// Whether three results are one: plain Rust's, the C call's words, and the wrapper's.
pub fn same(
    plain: &plain::Translation,
    words: &TranslationWords,
    wrapped: &Translation,
) -> Result<(), String> {
    let list = plain.places.get(..plain.count).unwrap_or(&[]);
    if plain.answer != wrapped.answer() || list != wrapped.reads() {
        return Err(format!(
            "plain Rust gives {plain:x?}, the wrapper {wrapped:x?}"
        ));
    }
    let expected = words_of(plain);
    if *words != expected {
        return Err(format!(
            "plain Rust gives the words {expected:x?}, the C call {words:x?}"
        ));
    }
    Ok(())
}

/// A translation's words, as include/balcumentri.h lists them: every place of the list counts.
pub fn words_of(translation: &plain::Translation) -> TranslationWords {
    let mut words = [0; TRANSLATION_WORDS];
    let start = match translation.answer {
        Answer::Address(address) => [0, address, 0, 0, 0, 0],
        Answer::Refused(number) => [2, number, 0, 0, 0, 0],
        Answer::Fault(Fault {
            cause,
            value,
            second,
            word,
            flag,
        }) => [1, cause, value, second, word, flag.into()],
    };
    words[..6].copy_from_slice(&start);
    words[6] = translation.count as u64;
    for (place, read) in words[7..].chunks_exact_mut(4).zip(&translation.places) {
        let Read {
            stage,
            level,
            address,
            value,
        } = *read;
        place.copy_from_slice(&[stage, level, address, value]);
    }
    words
}
