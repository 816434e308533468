//! The words of instructions: each event trapping into each tval, and each event with each instruction in the place of its word.

use std::path::PathBuf;

use second::bits::with_bit;
use second::hart::{Hart, Mode};
use second::registers::{MSCRATCH, ROWS};
use second::script::{parse, Answer, Session};
use second::trap::{Ending, Target};

use crate::coverage::words::{all_refused, all_trapped, events, Trapped};
use crate::scenes::interrupts::fill_written;
use crate::scenes::traps::trapping_hart;
use crate::scribe::Scribe;
use crate::words::{cases, named, Case, Fields, LOAD_FORMS, STORE_FORMS};

/// Everything that words can come to.
pub fn all_in_turn(scribe: &mut Scribe) {
    for trapped in all_trapped() {
        let word = scribe.rng.bits() as u32;
        for word in [word, !word] {
            trap(scribe, trapped, word);
        }
    }
    each_ending(scribe);
    scribe.line("image 0 1000");
    for (place, case) in cases().into_iter().enumerate() {
        if place % 16 == 0 {
            let mode = scribe.mode();
            let hart = scribe.legal_hart(mode);
            scribe.whole_hart(&hart);
        }
        meet(scribe, case);
    }
    each_fence(scribe);
    each_register(scribe);
}

/// A hart in which an event traps so, the event with this word, and the hart after it.
fn trap(scribe: &mut Scribe, (event, cause, mode, target): Trapped, word: u32) {
    loop {
        let mut hart = trapping_hart(scribe, mode);
        hart.medeleg = with_bit(hart.medeleg, cause as u32, target != Target::M);
        hart.hedeleg = with_bit(hart.hedeleg, 2, target == Target::Vs);
        // What a trap makes 0 was not.
        fill_written(scribe, &mut hart);
        let number = match scribe.rng.below(4) {
            0 => scribe.rng.below(0x1000),
            _ => scribe.rng.pick(&ROWS).number,
        };
        let line = format!("{} {word:x}", any_form(scribe, event, number));
        if goes(&hart, &line, cause, target) {
            scribe.whole_hart(&hart);
            scribe.line(&line);
            return scribe.show();
        }
    }
}

/// Whether an event of this hart traps so.
fn goes(hart: &Hart, line: &str, cause: u64, target: Target) -> bool {
    let mut session = Session::new(PathBuf::new());
    session.hart = *hart;
    let line = parse(line.as_bytes()).ok().flatten();
    let ending = match line.and_then(|line| session.perform(&line).ok()) {
        Some(Answer::Register(accessed)) => accessed.outcome.ending,
        Some(Answer::Event(outcome)) => outcome.ending,
        Some(Answer::Guest(reached)) => reached.outcome.ending,
        _ => return false,
    };
    matches!(ending, Ending::Trapped(trap, to) if (trap.cause, to) == (cause, target))
}

/// The line of an event of this form, without its word: that of a register access with this number and this value, of a hypervisor
/// load or store with this address and this value. A set or clear has its flag behind it.
pub fn text(form: &str, number: u64, value: u64) -> String {
    match form.split_once(' ') {
        Some(("hlv" | "hlvx", _)) => format!("{form} {number:x}"),
        Some(("hsv", _)) => format!("{form} {number:x} {value:x}"),
        Some((event, flag)) => format!("{event} {number:x} {value:x} {flag}"),
        None if form == "read" => format!("read {number:x}"),
        None if form == "write" => format!("write {number:x} {value:x}"),
        None => form.to_string(),
    }
}

/// The line of an event in any form, without its word. A hypervisor load or store has a width that is taken.
fn any_form(scribe: &mut Scribe, event: &str, number: u64) -> String {
    let form = match event {
        "set" | "clear" => format!("{event} {}", scribe.rng.below(2)),
        "hlv" => scribe.rng.pick(&LOAD_FORMS[..8]).to_string(),
        "hlvx" => scribe.rng.pick(&LOAD_FORMS[10..12]).to_string(),
        "hsv" => scribe.rng.pick(&STORE_FORMS[..4]).to_string(),
        _ => event.to_string(),
    };
    text(&form, number, scribe.rng.number())
}

/// A form with another width than 1, 2, 4 and 8, where it has none.
fn with_width(scribe: &mut Scribe, form: &str) -> String {
    let width = scribe
        .rng
        .pick(&[0, 3, 5, 6, 7, 9, 16, 0x104, (1u64 << 32) + 4]);
    match form {
        "hlv" => format!("hlv {width:x} {}", scribe.rng.below(2)),
        "hlvx" | "hsv" => format!("{form} {width:x}"),
        _ => form.to_string(),
    }
}

/// Each event done in M, and refused.
fn each_ending(scribe: &mut Scribe) {
    let done = events().map(|event| (event, 0));
    for (event, refusal) in done.chain(all_refused()) {
        let pc = if refusal == 2 { 2 } else { 0 };
        let base = if refusal == 1 { 8 } else { 0 };
        let number = if refusal == 5 {
            MSCRATCH | 0x1000
        } else {
            MSCRATCH
        };
        scribe.line(&format!("image {base:x} 1000"));
        scribe.hart(Mode::M, pc);
        let line = match refusal {
            3 => text(&with_width(scribe, event), number, 0),
            _ => any_form(scribe, event, number),
        };
        let word = scribe.rng.bits() as u32 | 1;
        scribe.line(&format!("{line} {word:x}"));
        scribe.show();
    }
}

/// An event and its word that meet so.
fn meet(scribe: &mut Scribe, (form, instruction, fields): Case) {
    let mut number = scribe.rng.pick(&ROWS).number;
    let mut value = scribe.rng.number();
    let pattern = named(instruction);
    let d = scribe.rng.below(32) as u32;
    let mut register = |zero| if zero { 0 } else { 1 + scribe.rng.below(31) };
    let word = match fields {
        Fields::None => pattern.word(&mut scribe.rng),
        Fields::Access([zero, own_number, own_value]) => {
            let s = register(zero);
            let other_number = number ^ (1 << scribe.rng.below(12));
            let n = if own_number { number } else { other_number };
            let other_value = s ^ (1 << scribe.rng.below(64));
            value = if own_value { s } else { other_value };
            pattern.with_fields(n as u32, s as u32, d)
        }
        Fields::Load([zero, no_address]) => {
            let s = register(zero) as u32;
            number = if no_address { 0 } else { number };
            pattern.with_fields(0, s, d)
        }
        Fields::Store([zero, no_address, no_register, no_value]) => {
            let (s, t) = (register(zero) as u32, register(no_register) as u32);
            number = if no_address { 0 } else { number };
            value = if no_value { 0 } else { value | 1 };
            pattern.with_fields(t, s, 0)
        }
    };
    let form = with_width(scribe, form);
    let line = text(&form, number, value);
    scribe.line(&format!("{line} {word:x}"));
}

/// Each fence, with and without its two registers, as its own event and as another.
fn each_fence(scribe: &mut Scribe) {
    for event in ["sfence.vma", "hfence.vvma", "hfence.gvma"] {
        let fence = named(&event.to_uppercase());
        let one = 1 + scribe.rng.below(31) as u32;
        let other = 1 + scribe.rng.below(31) as u32;
        for (space, address) in [(0, 0), (0, one), (other, 0), (one, other)] {
            let word = fence.with_fields(space, address, 0);
            scribe.line(&format!("{event} {word:x}"));
            scribe.line(&format!("wfi {word:x}"));
        }
    }
}

/// Each register's number in a word that fits and in one that does not, and one that is none.
fn each_register(scribe: &mut Scribe) {
    let listed = ROWS.iter().map(|row| row.number);
    for number in listed.chain([0x7c0]) {
        let d = scribe.rng.below(32) as u32;
        let word = named("CSRRS").with_fields(number as u32, 0, d);
        scribe.line(&format!("read {number:x} {word:x}"));
        scribe.line(&format!("read {:x} {word:x}", number ^ 1));
    }
}
