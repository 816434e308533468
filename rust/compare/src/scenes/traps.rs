//! Trap requests, also impossible ones, and the instructions that trap or return.

use second::hart::{Hart, Mode};
use second::registers::{with_mpp, MPRV};
use second::trap::Trap;

use crate::scenes::interrupts::make_pending;
use crate::scribe::Scribe;

/// The events without numbers, but for the word that most of them have.
pub const BARE_EVENTS: [&str; 9] = [
    "ecall",
    "ebreak",
    "mret",
    "sret",
    "wfi",
    "sfence.vma",
    "hfence.vvma",
    "hfence.gvma",
    "interrupt",
];

/// A hart with the registers that traps and returns look at filled.
pub fn trapping_hart(scribe: &mut Scribe, mode: Mode) -> Hart {
    let mut hart = Hart::new(0, 0, 0).in_mode(mode);
    hart.pc = scribe.pc();
    hart.medeleg = scribe.rng.pick(&[0, 0xf0_b7ff, 0xf0_b7ff]);
    hart.hedeleg = scribe.rng.pick(&[0, 0xb1ff, 0xb1ff]);
    if scribe.rng.chance(30) {
        hart.medeleg &= scribe.rng.bits();
        hart.hedeleg &= scribe.rng.bits();
    }
    hart.mtvec = scribe.rng.bits() & !2;
    hart.stvec = scribe.rng.bits() & !2;
    hart.vstvec = scribe.rng.bits() & !2;
    hart.mepc = scribe.rng.bits() & !3;
    hart.sepc = scribe.rng.bits() & !3;
    hart.vsepc = scribe.rng.bits() & !3;
    hart.mstatus |= scribe.rng.bits() & 0xc0_007e_01aa;
    let mpp = scribe.rng.pick(&[0, 1, 3]);
    hart.mstatus = with_mpp(hart.mstatus, mpp);
    hart.hstatus |= scribe.rng.bits() & 0x70_03c0;
    hart.vsstatus |= scribe.rng.bits() & 0xc_0122;
    if mode != Mode::M {
        hart.mstatus &= !(1 << MPRV);
    }
    if scribe.rng.chance(20) {
        make_pending(scribe, &mut hart);
    }
    hart
}

/// Trap requests.
pub fn requests(scribe: &mut Scribe) {
    for _ in 0..10 {
        let mode = scribe.mode();
        let hart = trapping_hart(scribe, mode);
        scribe.whole_hart(&hart);
        let cause = choose_cause(scribe);
        let trap = choose_trap(scribe, mode, cause);
        request(scribe, &trap);
        scribe.show();
        if scribe.rng.chance(30) {
            // A trap in the handler.
            let mode = scribe.session.hart.checked_mode().unwrap_or(mode);
            let cause = choose_cause(scribe);
            let trap = choose_trap(scribe, mode, cause);
            request(scribe, &trap);
            scribe.show_sometimes(70);
        }
    }
}

/// The line of a request.
pub fn request(scribe: &mut Scribe, trap: &Trap) {
    scribe.line(&format!(
        "trap {:x} {:x} {:x} {:x} {:x}",
        trap.cause,
        trap.value,
        trap.second,
        trap.word,
        u64::from(trap.flag)
    ));
}

/// A cause: mostly one that exists.
pub fn choose_cause(scribe: &mut Scribe) -> u64 {
    match scribe.rng.below(20) {
        0 => 14 + scribe.rng.below(6),
        1 => scribe.rng.below(80),
        2 => scribe.rng.number(),
        // An interrupt's can't be asked for.
        3 => (1 << 63) + scribe.rng.below(16),
        _ => scribe.rng.pick(&crate::coverage::CAUSES),
    }
}

/// A trap of this cause: mostly one that can arise in this mode, else with one thing wrong.
pub fn choose_trap(scribe: &mut Scribe, mode: Mode, cause: u64) -> Trap {
    let mut trap = fitting_trap(scribe, mode, cause);
    let number = scribe.rng.number();
    let thing = scribe.rng.below(10);
    if thing < THINGS {
        spoil(&mut trap, thing, number);
    }
    trap
}

/// A trap of this cause with nothing wrong but, perhaps, the mode.
fn fitting_trap(scribe: &mut Scribe, mode: Mode, cause: u64) -> Trap {
    let mut trap = Trap {
        cause,
        value: scribe.rng.number(),
        second: 0,
        word: 0,
        flag: mode.v(),
    };
    if matches!(cause, 8..=11) {
        trap.value = 0;
    }
    if matches!(cause, 20 | 21 | 23) {
        trap.second = scribe.rng.number();
        trap.word = scribe.rng.pick(&[0, 0x3000, u64::MAX]);
        trap.flag = true;
    }
    if matches!(cause, 2 | 8..=11 | 22) {
        trap.flag = false;
    }
    trap
}

/// The things of a trap that can be wrong.
const THINGS: u64 = 4;

/// Makes one thing of a trap another, which is wrong for some causes.
fn spoil(trap: &mut Trap, thing: u64, number: u64) {
    match thing {
        0 => trap.flag = !trap.flag,
        1 => trap.second = number,
        2 => trap.word = number,
        _ => trap.value = number,
    }
}

/// Every cause from a mode that it arises in, with V=1 where it can, and with each thing of the trap spoilt in turn, and some
/// of them together.
pub fn wrong_requests(scribe: &mut Scribe) {
    for cause in crate::coverage::CAUSES {
        let mode = match cause {
            9 => Mode::Hs,
            10 => Mode::Vs,
            11 => Mode::M,
            8 => Mode::Vu,
            _ => scribe.rng.pick(&[Mode::Vu, Mode::Vs]),
        };
        let together = scribe.rng.below(1 << THINGS);
        for things in [1, 2, 4, 8, together] {
            let pc = scribe.pc();
            scribe.hart(mode, pc);
            let mut trap = fitting_trap(scribe, mode, cause);
            for thing in (0..THINGS).filter(|thing| (things >> thing) & 1 == 1) {
                spoil(&mut trap, thing, scribe.rng.bits() | 1);
            }
            request(scribe, &trap);
        }
    }
}

/// Environment calls, breakpoints, returns, waits, fences and interrupts.
pub fn instructions(scribe: &mut Scribe) {
    for _ in 0..10 {
        let mode = scribe.mode();
        let hart = trapping_hart(scribe, mode);
        scribe.whole_hart(&hart);
        let word = scribe.rng.pick(&BARE_EVENTS);
        scribe.event(word);
        scribe.show();
        if scribe.rng.chance(30) {
            let word = scribe.rng.pick(&BARE_EVENTS);
            scribe.event(word);
            scribe.show_sometimes(70);
        }
    }
}
