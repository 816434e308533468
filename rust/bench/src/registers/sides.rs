//! The sides of the comparison for register accesses: that they answer alike, and what is timed.

use super::cases::{self, Case};
use super::{Access, Form};
use crate::call::{self, AccessWords, HartWords, ACCESS_WORDS, HART_WORDS};
use crate::plain;
use crate::timing::{Timed, COUNTED};
use balcumentri::{Accessed, Hart, Outcome};
use std::hint::black_box;

/// What is timed. Every access begins with the case's hart, which stays as it is.
#[derive(Clone, Copy, Debug, PartialEq, Eq)]
pub enum Side {
    /// Plain Rust, written over words that are kept.
    Plain,
    /// The proved library's C call, written over words that are kept.
    Call,
    /// The Rust wrapper, which changes a hart in place: it is given a copy, which is made for each access and timed with it.
    Wrapper,
}

impl Timed for Case {
    const PART: &'static str = "registers";
    const HEAD: &'static str = "
done, 2, 22, refused: how many accesses of the case are done, trap with cause 2, with cause 22, are refused
C call: balcumentri_read, _write, _set or _clear on words that the caller keeps
wrapper: Hart::read, write, set or clear on a copy of the hart, which is timed too
instructions: of one access, counted by callgrind

                                             nanoseconds: median and least of rounds       over plain Rust  instructions
case                   done    2   22 refused   plain Rust       C call      wrapper     C call    wrapper  plain C call";
    type Side = Side;
    const SIDES: &'static [Side] = &[Side::Plain, Side::Call, Side::Wrapper];

    fn all() -> Vec<Case> {
        cases::cases()
    }

    fn at(place: usize) -> Option<Case> {
        cases::case(place)
    }

    fn agree(cases: &[Case]) -> Result<String, String> {
        let mut compared = 0;
        for case in cases {
            for &access in &case.accesses {
                let outcome = same(&case.hart, access)?;
                if outcome != case.meant(access) {
                    let name = case.name;
                    return Err(format!(
                        "{name}, {access:x?}: not what is meant, but {outcome:?}"
                    ));
                }
                compared += 1;
            }
        }
        for (hart, access) in cases::every() {
            same(&hart, access)?;
            compared += 1;
        }
        Ok(format!(
            "{compared} register accesses: all sides give the same harts, outcomes and values."
        ))
    }

    fn columns(&self) -> String {
        format!(
            "{:<21} {:>5} {:>4} {:>4} {:>7}",
            self.name,
            self.count(|outcome| outcome == Outcome::Done),
            self.count(|outcome| outcome == Outcome::Trapped(2)),
            self.count(|outcome| outcome == Outcome::Trapped(22)),
            self.count(|outcome| matches!(outcome, Outcome::Refused(_))),
        )
    }

    fn accesses(&self) -> usize {
        self.accesses.len()
    }

    fn round(&self) -> usize {
        self.round
    }

    fn symbols(&self) -> [&'static str; COUNTED] {
        match self.form {
            Form::Read => ["plain_read", "balcumentri_read"],
            Form::Write => ["plain_write", "balcumentri_write"],
            Form::Set => ["plain_set", "balcumentri_set"],
            Form::Clear => ["plain_clear", "balcumentri_clear"],
        }
    }

    fn run(&self, side: Side, times: usize) {
        let mut kept = [0; ACCESS_WORDS];
        match side {
            Side::Plain => self.each(times, |access| {
                plain::access::access(black_box(&self.words), access, &mut kept);
                black_box(&kept);
            }),
            Side::Call => self.each(times, |access| {
                call::access(black_box(&self.words), access, &mut kept);
                black_box(&kept);
            }),
            Side::Wrapper => self.each(times, |access| {
                let mut hart = *black_box(&self.hart);
                black_box(wrapped(&mut hart, access));
                black_box(&hart);
            }),
        }
    }
}

impl Case {
    #[inline(always)]
    fn each(&self, times: usize, mut run: impl FnMut(Access)) {
        for _ in 0..times {
            for access in &self.accesses {
                run(*black_box(access));
            }
        }
    }
}

/// The access through the wrapper.
#[inline(always)]
fn wrapped(hart: &mut Hart, access: Access) -> Accessed {
    let Access {
        form,
        number,
        value,
        writes,
        word,
    } = access;
    match form {
        Form::Read => hart.read(number, word),
        Form::Write => hart.write(number, value, word),
        Form::Set => hart.set(number, value, writes, word),
        Form::Clear => hart.clear(number, value, writes, word),
    }
}

/// Whether all sides give the same words: what the access came to, or how they differ.
fn same(hart: &Hart, access: Access) -> Result<Outcome, String> {
    let words = call::words(hart);
    let by_call = called(&words, access)?;
    let mut next = *hart;
    let accessed = wrapped(&mut next, access);
    let by_wrapper = words_of(&next, accessed);
    if by_wrapper != by_call {
        return Err(format!(
            "{access:x?} on {words:x?}: the wrapper gives {by_wrapper:x?}, the C call {by_call:x?}"
        ));
    }
    Ok(accessed.outcome)
}

/// The words that both plain Rust and the C call give, or how they differ. A word that neither wrote would differ.
pub fn called(words: &HartWords, access: Access) -> Result<AccessWords, String> {
    let (mut plain, mut call) = ([!0; ACCESS_WORDS], [0; ACCESS_WORDS]);
    plain::access::access(words, access, &mut plain);
    call::access(words, access, &mut call);
    if plain != call {
        return Err(format!(
            "{access:x?} on {words:x?}: plain Rust gives {plain:x?}, the C call {call:x?}"
        ));
    }
    Ok(call)
}

/// A register access's words, as include/balcumentri.h lists them.
fn words_of(next: &Hart, accessed: Accessed) -> AccessWords {
    let (kind, number) = match accessed.outcome {
        Outcome::Done => (0, 0),
        Outcome::Trapped(cause) => (1, cause),
        Outcome::Refused(number) => (2, number),
        Outcome::Interrupted(number) => (3, number),
    };
    let mut words = [0; ACCESS_WORDS];
    words[..HART_WORDS].copy_from_slice(&call::words(next));
    words[HART_WORDS..].copy_from_slice(&[kind, number, accessed.value]);
    words
}
