//! Interrupts: harts with some pending, the event that takes one, and accesses to the registers that tell of them.

use second::bits::with_bit;
use second::hart::{Hart, Mode};
use second::registers::{self, HSTATUS_GVA, MIE, MSTATUS_GVA, SIE};
use second::trap::Target;

use crate::coverage::bits::{least, most, reached, REGISTERS};
use crate::coverage::interrupts::{pairs, passes, settings, ways, Enables, Way, ORDER};
use crate::scenes::registers::access;
use crate::scenes::traps::trapping_hart;
use crate::scribe::Scribe;

/// The interrupts that mideleg can hand down or not.
const SUPERVISOR: u64 = 0x222;
/// The interrupts that hideleg can hand down.
const VS: u64 = 0x444;
/// All interrupts.
const ALL: u64 = 0xeee;

/// Some harts with interrupts pending, and what comes of them.
pub fn events(scribe: &mut Scribe) {
    for _ in 0..8 {
        let mode = scribe.mode();
        let hart = pending_hart(scribe, mode);
        scribe.whole_hart(&hart);
        for _ in 0..1 + scribe.rng.below(3) {
            scribe.line("interrupt");
            scribe.show_sometimes(60);
            afterwards(scribe);
        }
    }
}

/// What a handler does: it reads what was written, goes back, or lets other interrupts through.
fn afterwards(scribe: &mut Scribe) {
    let Some(mode) = scribe.session.hart.checked_mode() else {
        return;
    };
    let (written, back): (&[&str], &str) = match mode {
        Mode::M => (&["read 342", "read 341", "read 300", "read 344"], "mret"),
        Mode::Hs => (&["read 142", "read 141", "read 100", "read 600"], "sret"),
        _ => (&["read 142", "read 141", "read 100", "read 144"], "sret"),
    };
    match scribe.rng.below(6) {
        0 | 1 => {
            scribe.event(back);
        }
        2 | 3 => {
            let line = scribe.rng.pick(written);
            scribe.event(line);
        }
        4 => {
            let number = scribe.rng.pick(&REGISTERS).number;
            access(scribe, number);
        }
        _ => {}
    }
}

/// A hart in this mode with interrupts pending, enabled and handed down in many ways.
pub fn pending_hart(scribe: &mut Scribe, mode: Mode) -> Hart {
    let mut hart = trapping_hart(scribe, mode);
    make_pending(scribe, &mut hart);
    hart
}

/// Fills the registers that interrupts depend on.
pub fn make_pending(scribe: &mut Scribe, hart: &mut Hart) {
    hart.mip = some_interrupts(scribe);
    hart.mie = match scribe.rng.below(4) {
        0 => ALL,
        1 => hart.mip & scribe.rng.bits(),
        2 => some_interrupts(scribe),
        _ => hart.mip | (scribe.rng.bits() & ALL),
    };
    hand_down(scribe, hart);
    if scribe.rng.chance(30) {
        fill_written(scribe, hart);
    }
    for tvec in [&mut hart.mtvec, &mut hart.stvec, &mut hart.vstvec] {
        if scribe.rng.chance(25) {
            // Near the end of the addresses.
            *tvec = (u64::MAX - 3 - 4 * scribe.rng.below(12)) | scribe.rng.below(2);
        }
    }
}

/// Fills what a trap or an interrupt writes.
pub fn fill_written(scribe: &mut Scribe, hart: &mut Hart) {
    for place in [
        &mut hart.mtval,
        &mut hart.mtval2,
        &mut hart.mtinst,
        &mut hart.stval,
        &mut hart.htval,
        &mut hart.htinst,
        &mut hart.vstval,
    ] {
        *place = scribe.rng.bits();
    }
    hart.mstatus |= 1 << MSTATUS_GVA;
    hart.hstatus |= 1 << HSTATUS_GVA;
}

/// One interrupt, two, all or any; sometimes without those that always go to M, or those of VS alone.
fn some_interrupts(scribe: &mut Scribe) -> u64 {
    let mut one = || 1 << scribe.rng.pick(&ORDER);
    let (one, other) = (one(), one());
    let within = scribe.rng.pick(&[ALL, ALL, SUPERVISOR | VS, VS]);
    match scribe.rng.below(6) {
        0 | 1 => one,
        2 => one | other,
        3 => within,
        _ => scribe.rng.bits() & within,
    }
}

/// Other contents of mideleg and hideleg.
fn hand_down(scribe: &mut Scribe, hart: &mut Hart) {
    let mut some = |of: u64| match scribe.rng.below(4) {
        0 => 0,
        1 => of,
        _ => scribe.rng.bits() & of,
    };
    hart.mideleg = VS | some(SUPERVISOR);
    hart.hideleg = some(VS);
}

/// Accesses to the registers of interrupts, with other delegations in between.
pub fn views(scribe: &mut Scribe) {
    let mode = scribe.rng.pick(&[
        Mode::M,
        Mode::M,
        Mode::Hs,
        Mode::Hs,
        Mode::Vs,
        Mode::Vs,
        Mode::U,
        Mode::Vu,
    ]);
    let hart = pending_hart(scribe, mode);
    scribe.whole_hart(&hart);
    for _ in 0..10 {
        let number = choose_number(scribe, mode);
        access(scribe, number);
        scribe.show_sometimes(60);
        if scribe.session.hart.checked_mode() != Some(mode) {
            // It trapped.
            scribe.whole_hart(&hart);
        }
        if scribe.rng.chance(25) {
            let mut other = scribe.session.hart;
            hand_down(scribe, &mut other);
            scribe.reg(registers::MIDELEG, other.mideleg);
            scribe.reg(registers::HIDELEG, other.hideleg);
        }
    }
    scribe.line("interrupt");
    scribe.show();
}

/// A number of a register of interrupts, mostly one that is reached.
fn choose_number(scribe: &mut Scribe, mode: Mode) -> u64 {
    let numbers = REGISTERS.map(|register| register.number);
    let within: Vec<u64> = numbers
        .into_iter()
        .filter(|number| reached(*number, mode).is_some())
        .collect();
    if within.is_empty() || scribe.rng.chance(5) {
        scribe.rng.pick(&numbers)
    } else {
        scribe.rng.pick(&within)
    }
}

// In turn, in one mode.

/// Everything that interrupts can come to in this mode.
pub fn all_in_turn(scribe: &mut Scribe, mode: Mode) {
    nothing_due(scribe, mode);
    each_alone(scribe, mode);
    each_pair(scribe, mode);
    each_delegation(scribe, mode);
    for register in &REGISTERS {
        each_form(scribe, mode, register.number);
        each_bit(scribe, mode, register.number);
    }
}

/// The event on this hart, and the hart after it.
fn event(scribe: &mut Scribe, hart: &Hart) {
    scribe.whole_hart(hart);
    scribe.line("interrupt");
    scribe.show();
}

/// None pending; none enabled.
fn nothing_due(scribe: &mut Scribe, mode: Mode) {
    let mut hart = pending_hart(scribe, mode);
    hart.mip = 0;
    event(scribe, &hart);
    enable_alone(scribe, &mut hart, 0);
    hart.mip |= ALL & !hart.mie;
    event(scribe, &hart);
}

/// Each interrupt alone to each level, with each setting of the enable bits.
fn each_alone(scribe: &mut Scribe, mode: Mode) {
    for way in ways() {
        for enables in settings() {
            let hart = hart_for(scribe, mode, &[way], enables);
            event(scribe, &hart);
        }
    }
}

/// Each two interrupts that are due at once or wait at once.
fn each_pair(scribe: &mut Scribe, mode: Mode) {
    for (first, second) in pairs() {
        for enables in [[true; 3], [false; 3]] {
            if passes(first.1, mode, enables) == passes(second.1, mode, enables) {
                let hart = hart_for(scribe, mode, &[first, second], enables);
                event(scribe, &hart);
            }
        }
    }
}

/// Each content of mideleg with each one of hideleg, with all interrupts pending and enabled.
fn each_delegation(scribe: &mut Scribe, mode: Mode) {
    for setting in 0..64u64 {
        let mut hart = pending_hart(scribe, mode);
        let [one, other] = [setting % 8, setting / 8].map(|three| {
            let bits = [1, 5, 9].iter().enumerate();
            bits.fold(0, |sum, (place, bit)| sum | (((three >> place) & 1) << bit))
        });
        (hart.mip, hart.mie) = (ALL, ALL);
        (hart.mideleg, hart.hideleg) = (VS | one, other << 1);
        event(scribe, &hart);
    }
}

/// A hart with these interrupts pending and enabled and no other, each going to its level.
fn hart_for(scribe: &mut Scribe, mode: Mode, ways: &[Way], enables: Enables) -> Hart {
    let mut hart = pending_hart(scribe, mode);
    hart.mstatus = with_bit(hart.mstatus, MIE, enables[0]);
    hart.mstatus = with_bit(hart.mstatus, SIE, enables[1]);
    hart.vsstatus = with_bit(hart.vsstatus, SIE, enables[2]);
    let mut numbers = 0;
    for (number, level) in ways {
        numbers |= 1 << number;
        hart.mideleg = with_bit(hart.mideleg, *number, *level != Target::M);
        hart.hideleg = with_bit(hart.hideleg, *number, *level == Target::Vs);
    }
    enable_alone(scribe, &mut hart, numbers);
    hart
}

/// These are pending and enabled; the others at most one of the two.
fn enable_alone(scribe: &mut Scribe, hart: &mut Hart, numbers: u64) {
    let others = scribe.rng.bits() & ALL & !numbers;
    let pending = scribe.rng.bits();
    hart.mip = numbers | (others & pending);
    hart.mie = numbers | (others & !pending);
}

/// Each form of access to this number.
fn each_form(scribe: &mut Scribe, mode: Mode, number: u64) {
    for form in ["read", "write", "set", "clear"] {
        for writes in [0, 1] {
            let value = scribe.rng.bits();
            let text = match form {
                "read" if writes == 1 => continue,
                "write" if writes == 0 => continue,
                "read" => format!("read {number:x}"),
                "write" => format!("write {number:x} {value:x}"),
                _ => format!("{form} {number:x} {value:x} {writes}"),
            };
            let hart = pending_hart(scribe, mode);
            scribe.whole_hart(&hart);
            scribe.event(&text);
            scribe.show();
        }
    }
}

/// All ones and all zeros written where all bits that can be are 1 or 0, handed down or not, and one bit alone in each place.
fn each_bit(scribe: &mut Scribe, mode: Mode, number: u64) {
    let Some(register) = reached(number, mode) else {
        return;
    };
    for setting in 0..8u32 {
        let extreme = |place: u32, number| match (setting >> place) & 1 {
            0 => least(number),
            _ => most(number),
        };
        let mut hart = pending_hart(scribe, mode);
        for (place, held) in [(0, Some(register.home)), (1, register.gate)] {
            if let Some(content) = held.and_then(|held| hart.stored_mut(held)) {
                *content = extreme(place, held.unwrap_or_default());
            }
        }
        let value = if setting & 4 == 4 { u64::MAX } else { 0 };
        written(scribe, &hart, number, value);
    }
    for place in 0..12 {
        for value in [1 << place, !(1 << place)] {
            let hart = pending_hart(scribe, mode);
            written(scribe, &hart, number, value);
        }
    }
}

/// A write, and the hart after it.
fn written(scribe: &mut Scribe, hart: &Hart, number: u64, value: u64) {
    scribe.whole_hart(hart);
    scribe.event(&format!("write {number:x} {value:x}"));
    scribe.show();
}
