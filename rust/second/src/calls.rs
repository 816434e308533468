//! Environment calls and the breakpoint.

use crate::hart::{Hart, Mode};
use crate::trap::{refused_hart, trapped, Outcome, Trap, BREAKPOINT};

/// ECALL: "Environment calls give 8 (U, VU), 9, 10, 11 with value 0."
pub fn ecall(hart: &Hart) -> Outcome {
    let mode = match hart.check() {
        Ok(mode) => mode,
        Err(bad) => return refused_hart(hart, bad),
    };
    let cause = match mode {
        Mode::U | Mode::Vu => 8,
        Mode::Hs => 9,
        Mode::Vs => 10,
        Mode::M => 11,
    };
    trapped(hart, mode, Trap::plain(cause))
}

/// EBREAK: "Breakpoint: value pc, flag = V."
pub fn ebreak(hart: &Hart) -> Outcome {
    let mode = match hart.check() {
        Ok(mode) => mode,
        Err(bad) => return refused_hart(hart, bad),
    };
    let trap = Trap {
        value: hart.pc,
        flag: mode.v(),
        ..Trap::plain(BREAKPOINT)
    };
    trapped(hart, mode, trap)
}

#[cfg(test)]
mod tests {
    use super::*;
    use crate::hart::BadHart;
    use crate::trap::{cannot_arise, Ending};

    fn raised(outcome: Outcome) -> Trap {
        match outcome.ending {
            Ending::Trapped(trap, _) => trap,
            other => panic!("no trap but {other:?}"),
        }
    }

    #[test]
    fn environment_calls_by_mode() {
        for (mode, cause) in [
            (Mode::U, 8),
            (Mode::Vu, 8),
            (Mode::Hs, 9),
            (Mode::Vs, 10),
            (Mode::M, 11),
        ] {
            let outcome = ecall(&Hart::new(0, 0, 0x40).in_mode(mode));
            assert_eq!(raised(outcome), Trap::plain(cause));
            assert_eq!(cannot_arise(mode, &raised(outcome)), None);
            assert_eq!(outcome.reason, None);
            assert_eq!(outcome.hart.mepc, 0x40);
            assert_eq!(outcome.hart.mcause, cause);
        }
    }

    #[test]
    fn the_breakpoint_has_pc_and_v() {
        for mode in Mode::ALL {
            let outcome = ebreak(&Hart::new(0, 0, 0x1234_5678_9abc).in_mode(mode));
            let expected = Trap {
                cause: 3,
                value: 0x1234_5678_9abc,
                second: 0,
                word: 0,
                flag: mode.v(),
            };
            assert_eq!(raised(outcome), expected);
            assert_eq!(cannot_arise(mode, &expected), None);
            assert_eq!(outcome.reason, None);
        }
    }

    #[test]
    fn a_hart_that_fails_check_2_is_refused() {
        let bad = Hart::new(1, 3, 0);
        let refused = refused_hart(&bad, BadHart::Mode(1, 3));
        assert_eq!(refused.ending, Ending::Refused(2));
        assert_eq!(ecall(&bad), refused);
        assert_eq!(ebreak(&bad), refused);
    }
}
