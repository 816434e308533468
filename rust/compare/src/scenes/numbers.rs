//! Every number of a register in every mode, and numbers over 4095.

use second::hart::{Hart, Mode};
use second::registers::{find, Row, MCAUSE, MPRV, ROWS, TVM, VTVM};

use crate::coverage::numbers::{all, differs, level, reached, registers, Case};
use crate::scenes::registers::access;
use crate::scenes::words::text;
use crate::scribe::{content_of, Scribe};

/// How often a write is tried until it changes something.
const TRIES: usize = 50;

/// Everything that numbers can come to.
pub fn all_in_turn(scribe: &mut Scribe) {
    for case in all() {
        if !scribe.coverage.numbers.has(&case) {
            attempt(scribe, case);
        }
    }
}

/// Makes a case happen.
fn attempt(scribe: &mut Scribe, case: Case) {
    match case {
        Case::Read { number, mode } => perform(scribe, mode, number, "read", 0),
        Case::Written { number, mode, form } => {
            for _ in 0..TRIES {
                if !scribe.coverage.numbers.has(&case) {
                    let value = value_for(scribe, mode, number, form);
                    perform(scribe, mode, number, form, value);
                }
            }
        }
        Case::Over { number } => {
            if scribe.rng.chance(10) {
                let mode = scribe.mode();
                renew(scribe, mode);
            }
            access(scribe, number);
        }
    }
}

/// An access, and a line that shows what came of it. A trap goes to M; MRET goes back.
fn perform(scribe: &mut Scribe, mode: Mode, number: u64, form: &str, value: u64) {
    prepare(scribe, mode, number);
    scribe.event(&text(form, number, value));
    if reached(mode, number, form != "read").is_ok() {
        return scribe.show();
    }
    scribe.event(&format!("read {MCAUSE:x}"));
    if mode != Mode::M {
        scribe.event("mret");
    }
}

/// A hart in this mode: a new one for each register, else the one that is there, with another mcause.
fn prepare(scribe: &mut Scribe, mode: Mode, number: u64) {
    if level(number).is_some() || scribe.session.hart.checked_mode() != Some(mode) {
        renew(scribe, mode);
    } else {
        let no_cause = scribe.rng.bits() | 0x100;
        scribe.reg(MCAUSE, no_cause);
    }
}

/// A new hart in this mode. All registers read otherwise than each other, but for hvip, which reads as hip, and hgeip, which reads as
/// hgeie; TVM and VTVM are clear, and causes 2 and 22 go to M.
fn renew(scribe: &mut Scribe, mode: Mode) {
    loop {
        let mut hart = Hart::new(0, 0, scribe.pc()).in_mode(mode);
        for row in &ROWS {
            if let Some(held) = hart.stored_mut(row.number) {
                *held = any_content(scribe, row);
            }
        }
        hart.mstatus &= !((1 << MPRV) | (1 << TVM));
        hart.hstatus &= !(1 << VTVM);
        hart.medeleg &= !((1 << 2) | (1 << 22));
        if registers().all(|number| differs(&hart, number)) {
            return scribe.whole_hart(&hart);
        }
    }
}

/// Any content of a register. MODE is one that is taken.
fn any_content(scribe: &mut Scribe, row: &Row) -> u64 {
    let mode = scribe.rng.pick(&[0, 8, 9, 10]) << 60;
    content_of(row, mode | (scribe.rng.bits() >> 4))
}

/// A value for an access that writes: of a register that it reaches one that this can hold, or bits that it can have as 0 and as 1,
/// without MODE; else any.
fn value_for(scribe: &mut Scribe, mode: Mode, number: u64, form: &str) -> u64 {
    let row = reached(mode, number, true).ok().and_then(find);
    let Some(row) = row.filter(|row| row.stored != 0) else {
        return scribe.rng.bits();
    };
    match form {
        "write" => any_content(scribe, row),
        _ => scribe.rng.bits() & row.stored & !(0xf << 60),
    }
}
