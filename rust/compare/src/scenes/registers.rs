//! Accesses to registers: all of them, unlisted numbers and numbers over 4095, in all forms and modes.

use second::hart::{Hart, Mode};
use second::registers::{self, with_mpp, Row, MPRV, ROWS, TVM, VTVM};

use crate::scribe::Scribe;

/// Some accesses of one hart.
pub fn accesses(scribe: &mut Scribe) {
    let mode = scribe.mode();
    let hart = scribe.legal_hart(mode);
    scribe.whole_hart(&hart);
    for _ in 0..8 {
        let number = choose_number(scribe);
        access(scribe, number);
        scribe.show_sometimes(40);
        if mode_now(scribe) != Some(mode) && scribe.rng.chance(60) {
            // It trapped, or went elsewhere: back to the mode, with other registers as they are.
            let mut hart = scribe.session.hart.in_mode(mode);
            if mode != Mode::M {
                hart.mstatus &= !(1 << MPRV);
            }
            scribe.whole_hart(&hart);
        }
    }
    scribe.show();
}

fn mode_now(scribe: &Scribe) -> Option<Mode> {
    scribe.session.hart.checked_mode()
}

/// Every number in turn, each in some mode and form.
pub fn numbers_in_turn(scribe: &mut Scribe, start: u64) {
    for step in 0..40 {
        let mode = scribe.mode();
        scribe.hart(mode, 0x100);
        let number = (start + step) % 0x1010;
        access(scribe, number);
        scribe.show_sometimes(5);
    }
}

/// Every register in turn: each mode, each form.
pub fn registers_in_turn(scribe: &mut Scribe, start: u64) {
    for step in 0..20 {
        let place = start + step;
        let rows = ROWS.len() as u64;
        let row = &ROWS[(place % rows) as usize];
        let mode = Mode::ALL[((place / rows) % 5) as usize];
        let mut hart = scribe.legal_hart(mode);
        // Mostly without the bits that make accesses trap.
        if scribe.rng.chance(70) {
            hart.mstatus &= !(1 << TVM);
            hart.hstatus &= !(1 << VTVM);
        }
        scribe.whole_hart(&hart);
        access(scribe, row.number);
        scribe.show();
    }
}

/// The registers whose writes have rules of their own, and their accesses too: MPP, MODE, TVM, VTVM, the views, hgeip.
const SPECIAL: [u64; 7] = [
    registers::MSTATUS,
    registers::SATP,
    registers::VSATP,
    registers::HGATP,
    registers::SSTATUS,
    registers::VSSTATUS,
    registers::HGEIP,
];

/// Writes that meet the rules about MPP and MODE: each old value with each new one, in each form.
pub fn write_rules(scribe: &mut Scribe) {
    for _ in 0..12 {
        let mode = scribe.rng.pick(&[Mode::M, Mode::M, Mode::Hs, Mode::Vs]);
        let mut hart = Hart::new(0, 0, 0x200).in_mode(mode);
        let mpp = scribe.rng.pick(&[0, 1, 3]);
        hart.mstatus = with_mpp(hart.mstatus, mpp);
        if scribe.rng.chance(40) {
            hart.mstatus |= scribe.rng.bits() & (1 << TVM);
            hart.hstatus |= scribe.rng.bits() & (1 << VTVM);
        }
        for number in [registers::SATP, registers::VSATP, registers::HGATP] {
            let old_mode = scribe.rng.pick(&[0u64, 8, 9, 10]) << 60;
            let old = old_mode | (scribe.rng.bits() & 0x0003_ffff_ffff_fffc);
            if let Some(place) = hart.stored_mut(number) {
                *place = old;
            }
        }
        scribe.whole_hart(&hart);
        let number = scribe.rng.pick(&SPECIAL);
        let value = match number {
            registers::MSTATUS => (scribe.rng.below(4) << 11) | (scribe.rng.bits() & !(3 << 11)),
            registers::HGEIP => scribe.rng.below(2),
            _ => (scribe.rng.below(16) << 60) | (scribe.rng.bits() >> 4),
        };
        let writes = scribe.rng.pick(&[1, 1, 1, 0]);
        let text = match scribe.rng.below(3) {
            0 => format!("write {number:x} {value:x}"),
            1 => format!("set {number:x} {value:x} {writes}"),
            _ => format!("clear {number:x} {value:x} {writes}"),
        };
        scribe.event(&text);
        scribe.show();
    }
}

/// A number: mostly a register's, else near one, below 4096, or one that a register's number is the end of.
fn choose_number(scribe: &mut Scribe) -> u64 {
    let listed = scribe.rng.pick(&ROWS).number;
    match scribe.rng.below(20) {
        0 => listed ^ (1 << scribe.rng.below(12)),
        1 => scribe.rng.below(0x1000),
        2 => listed | (1 << (12 + scribe.rng.below(52))),
        4..=6 => scribe.rng.pick(&SPECIAL),
        3 => scribe
            .rng
            .pick(&[0xfff, 0x1000, 0x1001, 1 << 32, u64::MAX, 1 << 63]),
        _ => listed,
    }
}

/// One access in one of the forms.
pub fn access(scribe: &mut Scribe, number: u64) {
    let row: Option<&Row> = ROWS.iter().find(|row| row.number == number);
    let value = match row {
        Some(row) => scribe.value_for(row),
        None => scribe.rng.number(),
    };
    let text = match scribe.rng.below(6) {
        0 => format!("read {number:x}"),
        1 => format!("write {number:x} {value:x}"),
        2 => format!("set {number:x} {value:x} 1"),
        3 => format!("set {number:x} {value:x} 0"),
        4 => format!("clear {number:x} {value:x} 1"),
        _ => format!("clear {number:x} {value:x} 0"),
    };
    scribe.event(&text);
}
