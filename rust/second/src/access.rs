//! "Access": read, write, set and clear of a register. Each has its instruction word, for where it traps.

use crate::bits::bit;
use crate::hart::{Hart, Mode};
use crate::registers::{after_write, find, Level, Row, View, HGATP, SATP, TVM, VTVM};
use crate::trap::{
    self, forbidden, illegal, refused, refused_hart, virtual_instruction, Control, Forbidden,
    Outcome, Raised, Refusal,
};

/// The last number that a register could have; refusal 5 begins after it.
pub const LAST_NUMBER: u64 = 4095;

/// The four forms of access. Set and clear carry "a flag saying whether they write".
#[derive(Clone, Copy, PartialEq, Eq, Debug)]
pub enum Action {
    /// Read.
    Read,
    /// Write this value.
    Write(u64),
    /// Set the bits that are 1 in the value.
    Set {
        /// The bits.
        value: u64,
        /// Whether it writes.
        writes: bool,
    },
    /// Clear the bits that are 1 in the value.
    Clear {
        /// The bits.
        value: u64,
        /// Whether it writes.
        writes: bool,
    },
}

impl Action {
    /// Whether it is a write: a set or clear whose flag is clear is a read, whatever its value.
    pub fn writes(self) -> bool {
        match self {
            Action::Read => false,
            Action::Write(_) => true,
            Action::Set { writes, .. } | Action::Clear { writes, .. } => writes,
        }
    }

    /// The value that the write rules see, made from the old value, which is what a read shows.
    fn combined(self, old: u64) -> u64 {
        match self {
            Action::Read => old,
            Action::Write(value) => value,
            Action::Set { value, .. } => old | value,
            Action::Clear { value, .. } => old & !value,
        }
    }
}

/// An access and its answer: "all answer the old value, a trap or refusal answers 0".
#[derive(Clone, Copy, PartialEq, Eq, Debug)]
pub struct Accessed {
    /// The old value, or 0.
    pub old: u64,
    /// The hart after the access, and how it ended.
    pub outcome: Outcome,
}

/// An access to a register. Refused as 2 by the hart, as 5 by a number over 4095.
pub fn access(hart: &Hart, number: u64, action: Action, word: u32) -> Accessed {
    let mode = match hart.check() {
        Ok(mode) => mode,
        Err(bad) => return without_value(refused_hart(hart, bad)),
    };
    if number > LAST_NUMBER {
        return without_value(refused(hart, Refusal::Number(number)));
    }
    match reached(hart, mode, number, action.writes()) {
        Ok(row) => done(hart, row, action),
        Err(raised) => without_value(forbidden(hart, mode, raised, word)),
    }
}

/// A refused or trapped access: it answers 0.
fn without_value(outcome: Outcome) -> Accessed {
    Accessed { old: 0, outcome }
}

/// A done access: the old value, the write if it is one, and "A done access moves pc on by 4, wrapping".
fn done(hart: &Hart, row: &Row, action: Action) -> Accessed {
    let old = content(hart, row);
    let mut after = *hart;
    if action.writes() {
        write(&mut after, row, action.combined(old));
    }
    Accessed {
        old,
        outcome: trap::done(after.moved_on()),
    }
}

/// The register that an access reaches, or its trap.
fn reached(hart: &Hart, mode: Mode, number: u64, writes: bool) -> Result<&'static Row, Raised> {
    // "Unlisted number, or a write to hgeip: cause 2 in every mode."
    let Some(row) = find(number) else {
        return Err(illegal(Forbidden::Unlisted(number)));
    };
    if row.read_only && writes {
        return Err(illegal(Forbidden::ReadOnly(row)));
    }
    match mode {
        Mode::M => Ok(row),
        Mode::Hs => reached_from_hs(hart, row),
        Mode::U => Err(illegal(Forbidden::Register(row, mode))),
        Mode::Vs => reached_from_vs(hart, row),
        Mode::Vu => reached_from_vu(row),
    }
}

/// "HS all but M's"; "in HS with TVM=1, satp and hgatp give 2".
fn reached_from_hs(hart: &Hart, row: &'static Row) -> Result<&'static Row, Raised> {
    if row.level == Level::M {
        return Err(illegal(Forbidden::Register(row, Mode::Hs)));
    }
    let trapped_by_tvm = row.number == SATP || row.number == HGATP;
    if trapped_by_tvm && bit(hart.mstatus, TVM) {
        return Err(illegal(Forbidden::Bit(Control::Tvm)));
    }
    Ok(row)
}

/// "M's give 2. In VS an S number reaches its VS register, and satp with VTVM=1 gives 22; VS and H numbers give 22."
fn reached_from_vs(hart: &Hart, row: &'static Row) -> Result<&'static Row, Raised> {
    let out_of_reach = Forbidden::Register(row, Mode::Vs);
    match row.level {
        Level::M => Err(illegal(out_of_reach)),
        Level::S if row.number == SATP && bit(hart.hstatus, VTVM) => {
            Err(virtual_instruction(Forbidden::Bit(Control::Vtvm)))
        }
        Level::S => vs_register_of(row).ok_or(illegal(out_of_reach)),
        Level::Vs | Level::H => Err(virtual_instruction(out_of_reach)),
    }
}

/// "In VU all S, VS and H numbers give 22." M's give 2.
fn reached_from_vu(row: &'static Row) -> Result<&'static Row, Raised> {
    let out_of_reach = Forbidden::Register(row, Mode::Vu);
    match row.level {
        Level::M => Err(illegal(out_of_reach)),
        Level::S | Level::Vs | Level::H => Err(virtual_instruction(out_of_reach)),
    }
}

/// The VS register of an S register: "VS: the same seven at 200, 205, 240-243, 280", and vsie 204 and vsip 244 of sie and sip.
fn vs_register_of(row: &Row) -> Option<&'static Row> {
    find(row.number.wrapping_add(0x100))
}

/// What a register reads as. A view shows bits of its home; hgeie and hgeip are 0.
fn content(hart: &Hart, row: &Row) -> u64 {
    match row.view {
        Some(view) => view.read(home(hart, &view), gate(hart, &view)) | row.constant,
        None => hart.stored(row.number).unwrap_or(0),
    }
}

/// Writes a value to a register. Through a view only the bits that it writes change in its home; a write to hgeie stores nothing.
fn write(hart: &mut Hart, row: &Row, value: u64) {
    let (number, new) = match row.view {
        Some(view) => (
            view.home,
            view.write(home(hart, &view), gate(hart, &view), value),
        ),
        None => (row.number, after_write(row, content(hart, row), value)),
    };
    if let Some(place) = hart.stored_mut(number) {
        *place = new;
    }
}

/// What a view's home holds.
fn home(hart: &Hart, view: &View) -> u64 {
    hart.stored(view.home).unwrap_or(0)
}

/// What a view's gate holds: all ones where it has none.
fn gate(hart: &Hart, view: &View) -> u64 {
    match view.gate {
        Some(number) => hart.stored(number).unwrap_or(0),
        None => u64::MAX,
    }
}

#[cfg(test)]
mod tests {
    use super::*;
    use crate::bits::with_bit;
    use crate::hart::BadHart;
    use crate::reasons::Reason;
    use crate::registers::{
        HEDELEG, HGEIE, HGEIP, HIDELEG, HIE, HIP, HSTATUS, HVIP, MEDELEG, MIDELEG, MIE_REGISTER,
        MIP, MSTATUS, ROWS, SIE_REGISTER, SIP, SSCRATCH, SSTATUS, SUM, VSATP, VSIE, VSIP, VSSTATUS,
        VSTVEC,
    };
    use crate::trap::{Ending, Trap};

    const FORMS: [fn(u64) -> Action; 6] = [
        |_| Action::Read,
        Action::Write,
        |value| Action::Set {
            value,
            writes: true,
        },
        |value| Action::Set {
            value,
            writes: false,
        },
        |value| Action::Clear {
            value,
            writes: true,
        },
        |value| Action::Clear {
            value,
            writes: false,
        },
    ];

    /// Any word: the highest bit, the lowest, and some between.
    const WORD: u32 = 0x8c30_5a73;

    /// The access with that word.
    fn access(hart: &Hart, number: u64, action: Action) -> Accessed {
        super::access(hart, number, action, WORD)
    }

    fn hart(mode: Mode) -> Hart {
        Hart::new(0, 0, 0x40).in_mode(mode)
    }

    /// The cause that an access traps with, or none where it is done.
    fn cause(accessed: &Accessed) -> Option<u64> {
        match accessed.outcome.ending {
            Ending::Trapped(trap, _) => {
                let value = u64::from(WORD);
                let expected = Trap {
                    value,
                    ..Trap::plain(trap.cause)
                };
                assert_eq!(trap, expected);
                assert_eq!(accessed.outcome.hart.mtval, value);
                assert_eq!(accessed.old, 0);
                Some(trap.cause)
            }
            Ending::Done => None,
            Ending::Refused(number) => panic!("refused {number}"),
        }
    }

    #[test]
    fn refusal_5_begins_at_4096() {
        for mode in Mode::ALL {
            for form in FORMS {
                let at_edge = access(&hart(mode), 0xfff, form(0));
                assert_eq!(cause(&at_edge), Some(2));
                for number in [0x1000, 0x1100, 0x1300, 1 << 32, u64::MAX] {
                    let over = access(&hart(mode), number, form(u64::MAX));
                    assert_eq!(over.outcome, refused(&hart(mode), Refusal::Number(number)));
                    assert_eq!(over.outcome.ending, Ending::Refused(5));
                    assert_eq!(over.old, 0);
                }
            }
        }
    }

    #[test]
    fn refusal_2_comes_before_5() {
        let bad = Hart::new(0, 3, 1);
        for number in [0x300, 0xfff, 0x1000, u64::MAX] {
            let accessed = access(&bad, number, Action::Read);
            assert_eq!(accessed.outcome, refused_hart(&bad, BadHart::Pc(1)));
            assert_eq!(accessed.old, 0);
        }
    }

    /// Every number below 4096 in every mode with every form and every setting of TVM and VTVM, against the paper's words.
    #[test]
    fn who_reaches_what() {
        for mode in Mode::ALL {
            for setting in 0..4u32 {
                let tvm = setting & 1 == 1;
                let vtvm = setting & 2 == 2;
                let mut before = hart(mode);
                before.mstatus = with_bit(before.mstatus, TVM, tvm);
                before.hstatus = with_bit(before.hstatus, VTVM, vtvm);
                for number in 0..4096 {
                    for form in FORMS {
                        let action = form(0);
                        let expected = expected_cause(mode, tvm, vtvm, number, action.writes());
                        let accessed = access(&before, number, action);
                        assert_eq!(cause(&accessed), expected, "{mode:?} {number:x} {action:?}");
                        let reason = expected.map(|_| {
                            Reason::Forbidden(expected_rule(mode, number, action.writes()))
                        });
                        assert_eq!(accessed.outcome.reason, reason);
                        let after = accessed.outcome.hart;
                        match expected {
                            Some(_) => assert_eq!((after.mepc, after.pc), (0x40, 0)),
                            None => assert_eq!(after.pc, 0x44),
                        }
                    }
                }
            }
        }
    }

    fn expected_cause(mode: Mode, tvm: bool, vtvm: bool, number: u64, writes: bool) -> Option<u64> {
        let s = matches!(number, 0x100 | 0x104 | 0x105 | 0x140..=0x144 | 0x180);
        let vs = matches!(number, 0x200 | 0x204 | 0x205 | 0x240..=0x244 | 0x280);
        let h = matches!(
            number,
            0x600 | 0x602..=0x604 | 0x607 | 0x643..=0x645 | 0x64a | 0x680 | 0xe12
        );
        let m = matches!(number, 0x300 | 0x302..=0x305 | 0x340..=0x344 | 0x34a | 0x34b);
        if !(s || vs || h || m) || (number == 0xe12 && writes) {
            return Some(2);
        }
        match mode {
            Mode::M => None,
            Mode::U => Some(2),
            Mode::Hs if m => Some(2),
            Mode::Hs if tvm && (number == 0x180 || number == 0x680) => Some(2),
            Mode::Hs => None,
            Mode::Vs | Mode::Vu if m => Some(2),
            Mode::Vu => Some(22),
            Mode::Vs if vs || h => Some(22),
            Mode::Vs if vtvm && number == 0x180 => Some(22),
            Mode::Vs => None,
        }
    }

    /// The rule of an access that traps: the bits are the last that is looked for.
    fn expected_rule(mode: Mode, number: u64, writes: bool) -> Forbidden {
        let Some(row) = find(number) else {
            return Forbidden::Unlisted(number);
        };
        match (mode, number) {
            (_, HGEIP) if writes => Forbidden::ReadOnly(row),
            (Mode::Hs, SATP | HGATP) => Forbidden::Bit(Control::Tvm),
            (Mode::Vs, SATP) => Forbidden::Bit(Control::Vtvm),
            _ => Forbidden::Register(row, mode),
        }
    }

    #[test]
    fn known_replay_hgeip_in_vs() {
        assert_eq!(
            cause(&access(&hart(Mode::Vs), HGEIP, Action::Read)),
            Some(22)
        );
        assert_eq!(
            cause(&access(&hart(Mode::Vs), HGEIP, Action::Write(0))),
            Some(2)
        );
        let quiet = Action::Set {
            value: 1,
            writes: false,
        };
        assert_eq!(cause(&access(&hart(Mode::Vs), HGEIP, quiet)), Some(22));
        let accessed = access(&hart(Mode::M), HGEIP, quiet);
        assert_eq!((cause(&accessed), accessed.old), (None, 0));
    }

    #[test]
    fn each_register_is_read_written_set_and_cleared_from_m() {
        for row in ROWS.iter().filter(|row| row.view.is_none()) {
            if row.read_only {
                continue;
            }
            let m = hart(Mode::M);
            let start = access(&m, row.number, Action::Read).old;
            let written = access(&m, row.number, Action::Write(u64::MAX));
            assert_eq!(written.old, start);
            let full = access(&written.outcome.hart, row.number, Action::Read).old;
            assert_eq!(full, after_write(row, start, u64::MAX), "{}", row.name);
            let set = access(
                &m,
                row.number,
                Action::Set {
                    value: u64::MAX,
                    writes: true,
                },
            );
            assert_eq!(set.old, start);
            assert_eq!(
                access(&set.outcome.hart, row.number, Action::Read).old,
                full
            );
            let cleared = access(
                &written.outcome.hart,
                row.number,
                Action::Clear {
                    value: u64::MAX,
                    writes: true,
                },
            );
            assert_eq!(cleared.old, full);
            assert_eq!(
                access(&cleared.outcome.hart, row.number, Action::Read).old,
                after_write(row, full, 0),
                "{}",
                row.name
            );
            assert!(cleared.outcome.hart.checked_mode().is_some());
        }
    }

    #[test]
    fn a_quiet_set_or_clear_changes_nothing_but_pc() {
        for row in &ROWS {
            for form in [3, 5] {
                let before = hart(Mode::M);
                let accessed = access(&before, row.number, FORMS[form](u64::MAX));
                assert_eq!(accessed.outcome.hart, before.moved_on());
            }
        }
    }

    #[test]
    fn sstatus_is_a_view_of_mstatus() {
        let mut before = hart(Mode::Hs);
        before.mstatus = 0xca_007c_19aa; // everything but MPRV, which only M may hold
        let accessed = access(&before, SSTATUS, Action::Write(0));
        assert_eq!(accessed.old, 0x2_000c_0122);
        assert_eq!(accessed.outcome.hart.mstatus, 0xca_0070_1888);
        let accessed = access(&accessed.outcome.hart, SSTATUS, Action::Write(u64::MAX));
        assert_eq!(accessed.old, 0x2_0000_0000);
        assert_eq!(accessed.outcome.hart.mstatus, 0xca_007c_19aa);
        // The known replay: all ones written.
        let accessed = access(&hart(Mode::M), SSTATUS, Action::Write(u64::MAX));
        let read = access(&accessed.outcome.hart, SSTATUS, Action::Read);
        assert_eq!(read.old, 0x2_000c_0122);
    }

    #[test]
    fn in_vs_an_s_number_reaches_its_vs_register() {
        let s_rows = ROWS.iter().filter(|row| row.level == Level::S);
        for row in s_rows.filter(|row| row.number != SIE_REGISTER && row.number != SIP) {
            let mut before = hart(Mode::Vs);
            before.mstatus |= 1 << SUM;
            before.vsstatus = 0x2_0000_0102;
            let written = access(&before, row.number, Action::Write(0x8000_0000_0000_0120));
            assert_eq!(cause(&written), None);
            let other = row.number + 0x100;
            let held = written.outcome.hart.stored(other).unwrap();
            assert_eq!(
                held,
                after_write(
                    find(other).unwrap(),
                    before.stored(other).unwrap(),
                    0x8000_0000_0000_0120
                )
            );
            assert_eq!(written.old, before.stored(other).unwrap());
            let mut expected = before.moved_on();
            *expected.stored_mut(other).unwrap() = held;
            assert_eq!(written.outcome.hart, expected);
        }
        let mut before = hart(Mode::Vs);
        before.vsstatus = 0x2_0004_0000;
        assert_eq!(access(&before, SSTATUS, Action::Read).old, 0x2_0004_0000);
    }

    /// MODE 9 and 10 are taken; of MODE 11 satp and vsatp take nothing, hgatp everything but MODE. In VS 180 is vsatp.
    #[test]
    fn each_mode_written_to_satp_vsatp_and_hgatp() {
        for (mode, number, held) in [
            (Mode::Hs, SATP, SATP),
            (Mode::Vs, SATP, VSATP),
            (Mode::Hs, VSATP, VSATP),
            (Mode::Hs, HGATP, HGATP),
        ] {
            for new in 0..16u64 {
                for old in [
                    0x8000_0000_0000_0120,
                    0x9000_0000_0000_0120,
                    0xa000_0000_0000_0120,
                ] {
                    let mut before = hart(mode);
                    *before.stored_mut(held).unwrap() = old;
                    let value = (new << 60) | 0x456_0000_0000_0450;
                    let written = access(&before, number, Action::Write(value));
                    let expected = match new {
                        0 | 8 | 9 | 10 => value & !(u64::from(held == HGATP) << 58),
                        _ if held == HGATP => (old & (0xf << 60)) | 0x056_0000_0000_0450,
                        _ => old,
                    };
                    let mut after = before.moved_on();
                    *after.stored_mut(held).unwrap() = expected;
                    assert_eq!(written.outcome.hart, after, "{number:x} {new} over {old:x}");
                    assert_eq!(written.old, old);
                }
            }
        }
    }

    #[test]
    fn an_ignored_write_is_still_done() {
        let mut before = hart(Mode::Hs);
        before.satp = 0x8000_0000_0000_0123;
        let accessed = access(&before, SATP, Action::Write(0xb000_0000_0000_0456));
        assert_eq!(accessed.old, 0x8000_0000_0000_0123);
        assert_eq!(accessed.outcome.hart, before.moved_on());
        // A set sees the combined value: MODE 8 or 3 is 11, so nothing of it is written.
        let set = Action::Set {
            value: 0x3000_0000_0000_0fff,
            writes: true,
        };
        let accessed = access(&before, SATP, set);
        assert_eq!(accessed.outcome.hart, before.moved_on());
    }

    #[test]
    fn mpp_follows_the_combined_value() {
        let mut before = hart(Mode::M);
        before.mstatus |= 1 << 11;
        let set = Action::Set {
            value: 1 << 12,
            writes: true,
        };
        let after = access(&before, MSTATUS, set).outcome.hart;
        assert_eq!(after.mstatus, 0xa_0000_1800);
        let clear = Action::Clear {
            value: 1 << 11,
            writes: true,
        };
        let after = access(&after, MSTATUS, clear).outcome.hart;
        assert_eq!(after.mstatus, 0xa_0000_1800, "writing 2 keeps 3");
    }

    #[test]
    fn pc_wraps() {
        let last = Hart::new(0, 3, u64::MAX - 3);
        assert_eq!(access(&last, SSCRATCH, Action::Read).outcome.hart.pc, 0);
    }

    #[test]
    fn vs_and_h_registers_are_reached_by_their_own_numbers_from_hs() {
        for number in [VSSTATUS, VSTVEC, VSATP, HSTATUS, HEDELEG] {
            let accessed = access(&hart(Mode::Hs), number, Action::Write(u64::MAX));
            assert_eq!(cause(&accessed), None, "{number:x}");
        }
        assert_eq!(
            cause(&access(&hart(Mode::Hs), MEDELEG, Action::Read)),
            Some(2)
        );
    }

    // The registers of interrupts.

    /// The hart after this value is written to a register from this mode; the write is done.
    fn after(before: &Hart, number: u64, value: u64) -> Hart {
        let accessed = access(before, number, Action::Write(value));
        assert_eq!(cause(&accessed), None, "{number:x}");
        assert!(accessed.outcome.hart.checked_mode().is_some());
        accessed.outcome.hart
    }

    /// What a read of a register shows; the read is done.
    fn shown(before: &Hart, number: u64) -> u64 {
        let accessed = access(before, number, Action::Read);
        assert_eq!(cause(&accessed), None, "{number:x}");
        accessed.old
    }

    /// All ones written from M to each new register, first with nothing delegated, then with everything: what it reads as, and
    /// what mideleg, mie, mip and hideleg hold.
    #[test]
    fn all_ones_written_to_the_registers_of_interrupts() {
        let nothing = hart(Mode::M);
        let mut everything = hart(Mode::M);
        everything.mideleg = 0x666;
        everything.hideleg = 0x444;
        for (before, number, reads, stored) in [
            (nothing, MIDELEG, 0x666, [0x666, 0, 0, 0]),
            (nothing, MIE_REGISTER, 0xeee, [0x444, 0xeee, 0, 0]),
            (nothing, MIP, 0x226, [0x444, 0, 0x226, 0]),
            (nothing, HIDELEG, 0x444, [0x444, 0, 0, 0x444]),
            (nothing, SIE_REGISTER, 0, [0x444, 0, 0, 0]),
            (nothing, SIP, 0, [0x444, 0, 0, 0]),
            (nothing, HIE, 0x444, [0x444, 0x444, 0, 0]),
            (nothing, HIP, 0x004, [0x444, 0, 0x004, 0]),
            (nothing, HVIP, 0x444, [0x444, 0, 0x444, 0]),
            (nothing, HGEIE, 0, [0x444, 0, 0, 0]),
            (nothing, VSIE, 0, [0x444, 0, 0, 0]),
            (nothing, VSIP, 0, [0x444, 0, 0, 0]),
            (everything, SIE_REGISTER, 0x222, [0x666, 0x222, 0, 0x444]),
            (everything, SIP, 0x002, [0x666, 0, 0x002, 0x444]),
            (everything, VSIE, 0x222, [0x666, 0x444, 0, 0x444]),
            (everything, VSIP, 0x002, [0x666, 0, 0x004, 0x444]),
        ] {
            let left = after(&before, number, u64::MAX);
            assert_eq!(shown(&left, number), reads, "{number:x}");
            let held = [left.mideleg, left.mie, left.mip, left.hideleg];
            assert_eq!(held, stored, "{number:x}");
            let mut expected = before.moved_on();
            [
                expected.mideleg,
                expected.mie,
                expected.mip,
                expected.hideleg,
            ] = stored;
            assert_eq!(left, expected, "nothing else changes");
        }
    }

    /// Zero written from M to each new register of a hart in which every bit is set and everything is delegated.
    #[test]
    fn zero_written_to_the_registers_of_interrupts() {
        let mut full = hart(Mode::M);
        [full.mideleg, full.mie, full.mip, full.hideleg] = [0x666, 0xeee, 0xeee, 0x444];
        for (number, was, stored) in [
            (MIDELEG, 0x666, [0x444, 0xeee, 0xeee, 0x444]),
            (MIE_REGISTER, 0xeee, [0x666, 0, 0xeee, 0x444]),
            (MIP, 0xeee, [0x666, 0xeee, 0xcc8, 0x444]),
            (HIDELEG, 0x444, [0x666, 0xeee, 0xeee, 0]),
            (SIE_REGISTER, 0x222, [0x666, 0xccc, 0xeee, 0x444]),
            (SIP, 0x222, [0x666, 0xeee, 0xeec, 0x444]),
            (HIE, 0x444, [0x666, 0xaaa, 0xeee, 0x444]),
            (HIP, 0x444, [0x666, 0xeee, 0xeea, 0x444]),
            (HVIP, 0x444, [0x666, 0xeee, 0xaaa, 0x444]),
            (HGEIE, 0, [0x666, 0xeee, 0xeee, 0x444]),
            (VSIE, 0x222, [0x666, 0xaaa, 0xeee, 0x444]),
            (VSIP, 0x222, [0x666, 0xeee, 0xeea, 0x444]),
        ] {
            assert_eq!(shown(&full, number), was, "{number:x}");
            let left = after(&full, number, 0);
            let held = [left.mideleg, left.mie, left.mip, left.hideleg];
            assert_eq!(held, stored, "{number:x}");
        }
    }

    /// sie and sip, from each mode in which S's numbers are S's: each bit of mideleg lets its own bit through, and no other.
    #[test]
    fn sie_and_sip_show_what_mideleg_hands_down() {
        for mode in [Mode::M, Mode::Hs] {
            for handed_down in [0, 0x002, 0x020, 0x200, 0x022, 0x202, 0x220, 0x222] {
                let mut full = hart(mode);
                [full.mideleg, full.mie, full.mip] = [0x444 | handed_down, 0xeee, 0xeee];
                assert_eq!(shown(&full, SIE_REGISTER), handed_down);
                assert_eq!(shown(&full, SIP), handed_down);
                let left = after(&full, SIE_REGISTER, 0);
                assert_eq!((left.mie, left.mip), (0xeee & !handed_down, 0xeee));
                let left = after(&full, SIP, 0);
                assert_eq!((left.mie, left.mip), (0xeee, 0xeee & !(handed_down & 2)));
                let mut empty = full;
                [empty.mie, empty.mip] = [0, 0];
                let left = after(&empty, SIE_REGISTER, u64::MAX);
                assert_eq!((left.mie, left.mip), (handed_down, 0));
                let left = after(&empty, SIP, u64::MAX);
                assert_eq!((left.mie, left.mip), (0, handed_down & 2));
            }
        }
    }

    /// vsie and vsip by their own numbers from M and HS, and by those of sie and sip from VS: each bit of hideleg lets its own bit
    /// through, one place lower.
    #[test]
    fn vsie_and_vsip_show_what_hideleg_hands_down() {
        for (mode, sie, sip) in [
            (Mode::M, VSIE, VSIP),
            (Mode::Hs, VSIE, VSIP),
            (Mode::Vs, SIE_REGISTER, SIP),
        ] {
            for handed_down in [0, 0x004, 0x040, 0x400, 0x044, 0x404, 0x440, 0x444] {
                for mideleg in [0x444, 0x666] {
                    let mut full = hart(mode);
                    [full.mideleg, full.hideleg] = [mideleg, handed_down];
                    [full.mie, full.mip] = [0xeee, 0xeee];
                    assert_eq!(shown(&full, sie), handed_down / 2);
                    assert_eq!(shown(&full, sip), handed_down / 2);
                    let left = after(&full, sie, 0);
                    assert_eq!((left.mie, left.mip), (0xeee & !handed_down, 0xeee));
                    let left = after(&full, sip, 0);
                    assert_eq!((left.mie, left.mip), (0xeee, 0xeee & !(handed_down & 4)));
                    let mut empty = full;
                    [empty.mie, empty.mip] = [0, 0];
                    let left = after(&empty, sie, u64::MAX);
                    assert_eq!((left.mie, left.mip), (handed_down, 0));
                    let left = after(&empty, sip, u64::MAX);
                    assert_eq!((left.mie, left.mip), (0, handed_down & 4));
                }
            }
        }
    }

    /// hie, hip and hvip, from both modes that reach them: nothing that is delegated counts.
    #[test]
    fn hie_hip_and_hvip_show_three_bits_of_mie_and_mip() {
        for mode in [Mode::M, Mode::Hs] {
            for (mideleg, hideleg) in [(0x444, 0), (0x666, 0x444)] {
                for bits in [0x004, 0x040, 0x400] {
                    let mut before = hart(mode);
                    [before.mideleg, before.hideleg] = [mideleg, hideleg];
                    [before.mie, before.mip] = [0xaaa | bits, 0xaaa];
                    assert_eq!([HIE, HIP, HVIP].map(|n| shown(&before, n)), [bits, 0, 0]);
                    [before.mie, before.mip] = [0xaaa, 0xaaa | bits];
                    assert_eq!([HIE, HIP, HVIP].map(|n| shown(&before, n)), [0, bits, bits]);
                    assert_eq!(after(&before, HVIP, 0).mip, 0xaaa);
                    let kept = bits & 0x440;
                    assert_eq!(after(&before, HIP, 0).mip, 0xaaa | kept);
                    assert_eq!(after(&before, HIE, bits).mie, 0xaaa | bits);
                }
            }
        }
    }

    /// Bit 6 and bit 10 of mip move through hvip alone; bit 2 through all four; 3, 7 and 11 through none.
    #[test]
    fn which_registers_move_each_bit_of_mip() {
        let mut empty = hart(Mode::M);
        [empty.mideleg, empty.hideleg] = [0x666, 0x444];
        let mut full = empty;
        full.mip = 0xeee;
        for (position, movers) in [
            (1, vec![MIP, SIP]),
            (2, vec![MIP, HIP, HVIP, VSIP]),
            (3, vec![]),
            (5, vec![MIP]),
            (6, vec![HVIP]),
            (7, vec![]),
            (9, vec![MIP]),
            (10, vec![HVIP]),
            (11, vec![]),
        ] {
            for row in &ROWS {
                if row.read_only {
                    continue;
                }
                let moves = movers.contains(&row.number);
                let set = after(&empty, row.number, u64::MAX).mip;
                assert_eq!(bit(set, position), moves, "{} {position}", row.name);
                let cleared = after(&full, row.number, 0).mip;
                assert_eq!(bit(cleared, position), !moves, "{} {position}", row.name);
            }
        }
    }

    #[test]
    fn set_and_clear_of_a_view_combine_with_what_it_shows() {
        let mut before = hart(Mode::Hs);
        [before.mideleg, before.hideleg] = [0x446, 0x004];
        [before.mie, before.mip] = [0x884, 0xccc];
        let set = |value| Action::Set {
            value,
            writes: true,
        };
        let clear = |value| Action::Clear {
            value,
            writes: true,
        };
        for (number, action, old, mie, mip) in [
            (SIE_REGISTER, set(0x222), 0, 0x886, 0xccc),
            (SIP, set(0x222), 0, 0x884, 0xcce),
            (VSIE, clear(0x222), 0x002, 0x880, 0xccc),
            (VSIE, set(0x220), 0x002, 0x884, 0xccc),
            (VSIP, clear(0x002), 0x002, 0x884, 0xcc8),
            (VSIP, set(0), 0x002, 0x884, 0xccc),
            (HIP, clear(0x440), 0x444, 0x884, 0xccc),
            (HVIP, clear(0x040), 0x444, 0x884, 0xc8c),
            (HIE, set(0x440), 0x004, 0xcc4, 0xccc),
        ] {
            let accessed = access(&before, number, action);
            let left = accessed.outcome.hart;
            assert_eq!(accessed.old, old, "{number:x} {action:?}");
            assert_eq!((left.mie, left.mip), (mie, mip), "{number:x} {action:?}");
        }
    }

    /// hgeie reads 0 and is no read-only register: a write to it is done and stores nothing. hgeip's is cause 2.
    #[test]
    fn hgeie_is_zero_and_written() {
        for mode in [Mode::M, Mode::Hs] {
            let before = hart(mode);
            assert_eq!(after(&before, HGEIE, u64::MAX), before.moved_on());
            assert_eq!(shown(&after(&before, HGEIE, u64::MAX), HGEIE), 0);
            let write = access(&before, HGEIP, Action::Write(0));
            assert_eq!(cause(&write), Some(2));
        }
        let in_vs = access(&hart(Mode::Vs), HGEIE, Action::Write(0));
        assert_eq!(cause(&in_vs), Some(22));
    }
}
