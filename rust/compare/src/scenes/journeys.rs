//! Many events of one hart in a row: out of M, through the other modes, and back by traps and interrupts.

use second::hart::Mode;
use second::registers::ROWS;

use crate::coverage::bits::REGISTERS;
use crate::coverage::words::GUEST_EVENTS;
use crate::scenes::guest::{of_event, text};
use crate::scenes::interrupts::pending_hart;
use crate::scenes::registers::access;
use crate::scenes::traps::{choose_cause, choose_trap, request, BARE_EVENTS};
use crate::scribe::Scribe;

/// A journey.
pub fn journey(scribe: &mut Scribe) {
    let hart = pending_hart(scribe, Mode::M);
    scribe.whole_hart(&hart);
    for _ in 0..30 {
        let Some(mode) = scribe.session.hart.checked_mode() else {
            return;
        };
        step(scribe, mode);
        scribe.show_sometimes(20);
    }
    scribe.show();
}

/// One event: the higher the mode, the more often something that leaves it.
fn step(scribe: &mut Scribe, mode: Mode) {
    match scribe.rng.below(14) {
        0 | 1 => {
            let number = scribe.rng.pick(&ROWS).number;
            access(scribe, number);
        }
        2 => {
            let cause = choose_cause(scribe);
            let trap = choose_trap(scribe, mode, cause);
            request(scribe, &trap);
        }
        3 => set_previous_mode(scribe, mode),
        4 => {
            let word = scribe.rng.pick(&["fetch", "load", "store"]);
            let address = scribe.rng.bits() & !7;
            scribe.line(&format!("{word} {address:x} 4"));
        }
        5 | 6 => {
            let back = match mode {
                Mode::M => "mret",
                _ => "sret",
            };
            scribe.event(back);
        }
        7 => {
            let number = scribe.rng.pick(&REGISTERS).number;
            access(scribe, number);
        }
        8 => {
            scribe.line("interrupt");
        }
        9 | 10 => {
            let base = scribe.session.image.base;
            let address = match scribe.rng.below(2) {
                0 => base.wrapping_add(scribe.rng.below(0x200) * 8),
                _ => scribe.rng.number() & !7,
            };
            let event = scribe.rng.pick(&GUEST_EVENTS);
            let access = of_event(scribe, event, address);
            scribe.event(&text(&access));
        }
        _ => {
            let word = scribe.rng.pick(&BARE_EVENTS);
            scribe.event(word);
        }
    }
}

/// A write that lets the next return go elsewhere.
fn set_previous_mode(scribe: &mut Scribe, mode: Mode) {
    let text = match (mode, scribe.rng.below(3)) {
        (Mode::M, 0) => "write 300 8000000800",
        (Mode::M, 1) => "set 300 8000000000 1",
        (Mode::M, _) => "clear 300 1800 1",
        (Mode::Hs, 0) => "set 600 80 1",
        (Mode::Hs, 1) => "set 100 100 1",
        (Mode::Hs, _) => "clear 600 700000 1",
        (_, 0) => "set 100 100 1",
        (_, 1) => "write 141 8000",
        _ => "clear 100 100 1",
    };
    scribe.event(text);
}
