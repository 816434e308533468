//! Plain Rust, the proved library and the second program give the same harts, outcomes and values for register accesses.

mod common;

use bench::call::{self, AccessWords, HartWords, HART_WORDS};
use bench::plain::access::is_listed;
use bench::registers::cases::{cases, Case};
use bench::registers::sides::called;
use bench::registers::{Access, Form};
use bench::timing::Timed;
use common::{second_of_words, words_of_second};
use compare::rng::Rng;
use second::access::Action;
use second::registers::ROWS;
use second::trap::{Ending, Target};
use std::collections::BTreeMap;

/// V and the privilege of the five modes.
const MODES: [(u64, u64); 5] = [(0, 3), (0, 1), (0, 0), (1, 1), (1, 0)];

/// The forms, each with whether it writes.
const FORMS: [(Form, bool); 6] = [
    (Form::Read, false),
    (Form::Write, true),
    (Form::Set, true),
    (Form::Set, false),
    (Form::Clear, true),
    (Form::Clear, false),
];

/// What the access came to by the second program, with whose words plain Rust's and the C call's agree.
fn checked(words: &HartWords, access: Access) -> Ending {
    let Access {
        form,
        number,
        value,
        writes,
        word,
    } = access;
    let action = match form {
        Form::Read => Action::Read,
        Form::Write => Action::Write(value),
        Form::Set => Action::Set { value, writes },
        Form::Clear => Action::Clear { value, writes },
    };
    let second = second::access::access(&second_of_words(words), number, action, word);
    let (kind, code) = match second.outcome.ending {
        Ending::Done => (0, 0),
        Ending::Trapped(trap, _) => (1, trap.cause),
        Ending::Refused(number) => (2, number),
    };
    let next = words_of_second(&second.outcome.hart);
    let given = called(words, access).unwrap();
    assert_eq!(given[..HART_WORDS], next, "{access:x?} on {words:x?}");
    assert_eq!(given[HART_WORDS..], [kind, code, second.old], "{access:x?}");
    second.outcome.ending
}

/// A random hart in a mode, by writes of all registers in M.
fn legal(rng: &mut Rng, (v, privilege): (u64, u64)) -> HartWords {
    let mut hart = balcumentri::Hart::new(0, 3, 0);
    for row in &ROWS {
        hart.write(row.number, rng.number(), 0);
    }
    let mut words = call::words(&hart);
    words[..3].copy_from_slice(&[v, privilege, rng.number() & !3]);
    let place = |number| 3 + balcumentri::place(number).unwrap();
    // mip's bits that are not written
    words[place(0x344)] |= rng.bits() & 0x888;
    if privilege != 3 {
        // MPRV
        words[place(0x300)] &= !(1 << 17);
    }
    words
}

/// A random access: to a register, or to any number, rarely over 4095.
fn access(rng: &mut Rng) -> Access {
    let (form, writes) = rng.pick(&FORMS);
    let number = match rng.below(20) {
        0 => rng.number(),
        1..=4 => rng.below(4096),
        _ => rng.pick(&ROWS).number,
    };
    Access {
        form,
        number,
        value: rng.number(),
        writes,
        word: rng.bits() as u32,
    }
}

#[test]
fn the_cases_come_to_what_is_meant() {
    Case::agree(&cases()).unwrap();
}

#[test]
fn the_second_program_agrees_on_the_cases() {
    for case in &cases() {
        for &access in case.accesses.iter().take(500) {
            checked(&case.words, access);
        }
    }
}

#[test]
fn the_forty_one_and_nothing_else_are_listed() {
    let listed: Vec<u64> = (0..=4095).filter(|number| is_listed(*number)).collect();
    assert_eq!(listed, ROWS.map(|row| row.number));
    assert_eq!(listed.len(), 41);
    for bit in 12..64 {
        assert!(!listed.iter().any(|number| is_listed(number | 1 << bit)));
    }
}

#[test]
fn random_harts() {
    let mut rng = Rng::new(11);
    let mut seen = BTreeMap::new();
    for _ in 0..6000 {
        let mode = rng.pick(&MODES);
        let mut words = legal(&mut rng, mode);
        if rng.chance(10) {
            words[rng.below(HART_WORDS as u64) as usize] = rng.number();
        }
        for _ in 0..20 {
            let ending = match checked(&words, access(&mut rng)) {
                Ending::Done => (0, 0, None),
                Ending::Trapped(trap, target) => (1, trap.cause, Some(target)),
                Ending::Refused(number) => (2, number, None),
            };
            *seen.entry((mode, ending)).or_insert(0) += 1;
        }
    }
    let ended = |modes: &[(u64, u64)], ending| {
        for mode in modes {
            let count = seen.get(&(*mode, ending)).copied().unwrap_or(0);
            assert!(count >= 50, "{mode:?} {ending:?}: {count}");
        }
    };
    let [m, hs, u, vs, vu] = MODES;
    ended(&[m, hs, vs], (0, 0, None));
    ended(&MODES, (1, 2, Some(Target::M)));
    ended(&[hs, u, vs, vu], (1, 2, Some(Target::Hs)));
    ended(&[vs, vu], (1, 2, Some(Target::Vs)));
    ended(&[vs, vu], (1, 22, Some(Target::M)));
    ended(&[vs, vu], (1, 22, Some(Target::Hs)));
    ended(&MODES, (2, 2, None));
    ended(&MODES, (2, 5, None));
}

#[test]
fn every_bit_of_every_word_of_a_hart() {
    let mut rng = Rng::new(12);
    let (mut refused, mut taken) = (0, 0);
    for mode in MODES {
        let words = legal(&mut rng, mode);
        for bit in 0..64 * HART_WORDS {
            let mut words = words;
            words[bit / 64] ^= 1 << (bit % 64);
            match checked(&words, access(&mut rng)) {
                Ending::Refused(2) => refused += 1,
                _ => taken += 1,
            }
        }
    }
    assert!(refused > 1000 && taken > 1000, "{refused} {taken}");
}

#[test]
fn every_bit_mode_and_mpp_of_a_write() {
    let mut rng = Rng::new(13);
    let bits = (0..64).flat_map(|bit| [1 << bit, !(1 << bit)]);
    let modes = (0..16).map(|mode| mode << 60 | 0xfff);
    let mpps = (0..4).map(|mpp| mpp << 11);
    let values: Vec<u64> = bits.chain(modes).chain(mpps).collect();
    for row in &ROWS {
        for &value in &values {
            let words = legal(&mut rng, (0, 3));
            for (form, writes) in FORMS {
                let access = Access {
                    form,
                    number: row.number,
                    value,
                    writes,
                    word: !0,
                };
                checked(&words, access);
            }
        }
    }
}

#[test]
fn pc_wraps() {
    let mut words = call::words(&balcumentri::Hart::new(0, 3, u64::MAX - 3));
    let read = Access {
        form: Form::Read,
        number: 0x340,
        value: 0,
        writes: false,
        word: 0,
    };
    checked(&words, read);
    let next: AccessWords = called(&words, read).unwrap();
    assert_eq!(next[2], 0);
    words[2] = 0;
    assert_eq!(called(&words, read).unwrap()[2], 4);
}
