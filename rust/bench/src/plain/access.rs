//! The register access as plain Rust, written for speed: the other side of the comparison.
//!
//! It does all that the proved calls do: check 2 over the whole hart, refusal 5, the table of forty-one registers, what each mode
//! reaches, what a view shows, what a write stores, and the delivery of a trap to M, HS or VS. Nothing is kept between calls. What
//! makes it fast:
//!
//! - The caller lends the result. The hart is copied there, and what the access changes is written over it.
//! - A binary search finds a register's row by its number. The row and the words that it names are loaded unchecked.
//! - A row is masks, so that views and gates, MPP and MODE take no branch: one formula reads, and one writes.
//! - Each form has a function of its own, with which all inner functions become one.
#![allow(unsafe_code)]

use super::hart::{
    mpp_is_2, passes, wrong_mode, EPC_ZERO, GVA, HEDELEG, HEDELEG_STORED, HGATP, HGATP_ZERO,
    HIDELEG, HSTATUS, HSTATUS_GVA, HSTATUS_STORED, HTINST, HTVAL, INTERRUPTS, INTERRUPT_ENABLE,
    INTERRUPT_PENDING, MACHINE, MCAUSE, MEDELEG, MEDELEG_STORED, MEPC, MIDELEG, MIE, MODE_LOW,
    MPIE, MPP, MPP_LOW, MPV, MSCRATCH, MSTATUS, MSTATUS_STORED, MTINST, MTVAL, MTVAL2, MTVEC, PC,
    PRIVILEGE, SATP, SCAUSE, SEPC, SIE, SPIE, SPP, SPV, SPVP, SSCRATCH, STVAL, STVEC, SUPERVISOR,
    S_INTERRUPTS, TVEC_ZERO, TVM, USER, UXL, VIRTUALIZATION, VSATP, VSCAUSE, VSEPC, VSSCRATCH,
    VSSTATUS, VSSTATUS_STORED, VSTVAL, VSTVEC, VS_INTERRUPTS, VTVM,
};
use crate::call::{AccessWords, HartWords, HART_WORDS};
use crate::registers::{Access, Form};

/// One register.
struct Row {
    number: u16,
    level: Level,
    /// The word of a hart that holds it, or whose bits it shows.
    home: u8,
    /// The word without whose bits it neither shows nor stores them.
    gate: u8,
    /// How many places lower it shows them.
    down: u8,
    /// The bits that it shows, those that a write stores, and those that no gate is asked for.
    shown: u64,
    stored: u64,
    free: u64,
    /// What stays as it is where a write's MPP is 2, and where its MODE is one that can't be held.
    by_mpp: u64,
    by_mode: u64,
}

/// Whose register it is.
#[derive(Clone, Copy, PartialEq, Eq)]
enum Level {
    S,
    Vs,
    H,
    M,
}

impl Row {
    /// A register that a hart keeps.
    const fn kept(number: u16, level: Level, home: usize, stored: u64) -> Row {
        Row {
            number,
            level,
            home: home as u8,
            gate: 0,
            down: 0,
            shown: !0,
            stored,
            free: !0,
            by_mpp: 0,
            by_mode: 0,
        }
    }

    /// A view of one that it keeps.
    const fn view(number: u16, level: Level, home: usize, shown: u64, stored: u64) -> Row {
        Row {
            shown,
            ..Row::kept(number, level, home, stored)
        }
    }

    /// A constant 0.
    const fn zero(number: u16, level: Level) -> Row {
        Row::view(number, level, 0, 0, 0)
    }

    /// The same behind a gate, its bits shown so many places lower.
    const fn gated(self, gate: usize, down: u8) -> Row {
        Row {
            gate: gate as u8,
            down,
            free: 0,
            ..self
        }
    }
}

const SATP_NUMBER: u64 = 0x180;
const HGATP_NUMBER: u64 = 0x680;
const HGEIP_NUMBER: u64 = 0xe12;

/// The registers, in rising order of their numbers: first S's, then VS's, which they reach in VS.
#[rustfmt::skip]
static ROWS: [Row; 41] = {
    use Level::{H, M, S, Vs};
    use INTERRUPT_ENABLE as ENABLE;
    use INTERRUPT_PENDING as PENDING;
    const ALL: u64 = !0;
    const TVEC: u64 = !TVEC_ZERO;
    const EPC: u64 = !EPC_ZERO;
    const MODE: u64 = 0xf << MODE_LOW;
    const S_SOFTWARE: u64 = 1 << 1;
    const VS_SOFTWARE: u64 = 1 << 2;
    [
        Row::view(0x100, S, MSTATUS, VSSTATUS_STORED | UXL, VSSTATUS_STORED),
        Row::view(0x104, S, ENABLE, S_INTERRUPTS, S_INTERRUPTS).gated(MIDELEG, 0),
        Row::kept(0x105, S, STVEC, TVEC),
        Row::kept(0x140, S, SSCRATCH, ALL),
        Row::kept(0x141, S, SEPC, EPC),
        Row::kept(0x142, S, SCAUSE, ALL),
        Row::kept(0x143, S, STVAL, ALL),
        Row::view(0x144, S, PENDING, S_INTERRUPTS, S_SOFTWARE).gated(MIDELEG, 0),
        Row { by_mode: ALL, ..Row::kept(0x180, S, SATP, ALL) },
        Row::kept(0x200, Vs, VSSTATUS, VSSTATUS_STORED),
        Row::view(0x204, Vs, ENABLE, VS_INTERRUPTS, VS_INTERRUPTS).gated(HIDELEG, 1),
        Row::kept(0x205, Vs, VSTVEC, TVEC),
        Row::kept(0x240, Vs, VSSCRATCH, ALL),
        Row::kept(0x241, Vs, VSEPC, EPC),
        Row::kept(0x242, Vs, VSCAUSE, ALL),
        Row::kept(0x243, Vs, VSTVAL, ALL),
        Row::view(0x244, Vs, PENDING, VS_INTERRUPTS, VS_SOFTWARE).gated(HIDELEG, 1),
        Row { by_mode: ALL, ..Row::kept(0x280, Vs, VSATP, ALL) },
        Row { by_mpp: MPP, ..Row::kept(0x300, M, MSTATUS, MSTATUS_STORED) },
        Row::kept(0x302, M, MEDELEG, MEDELEG_STORED),
        Row::kept(0x303, M, MIDELEG, S_INTERRUPTS),
        Row::kept(0x304, M, ENABLE, INTERRUPTS),
        Row::kept(0x305, M, MTVEC, TVEC),
        Row::kept(0x340, M, MSCRATCH, ALL),
        Row::kept(0x341, M, MEPC, EPC),
        Row::kept(0x342, M, MCAUSE, ALL),
        Row::kept(0x343, M, MTVAL, ALL),
        Row::kept(0x344, M, PENDING, S_INTERRUPTS | VS_SOFTWARE),
        Row::kept(0x34a, M, MTINST, ALL),
        Row::kept(0x34b, M, MTVAL2, ALL),
        Row::kept(0x600, H, HSTATUS, HSTATUS_STORED),
        Row::kept(0x602, H, HEDELEG, HEDELEG_STORED),
        Row::kept(0x603, H, HIDELEG, VS_INTERRUPTS),
        Row::view(0x604, H, ENABLE, VS_INTERRUPTS, VS_INTERRUPTS),
        Row::zero(0x607, H),
        Row::kept(0x643, H, HTVAL, ALL),
        Row::view(0x644, H, PENDING, VS_INTERRUPTS, VS_SOFTWARE),
        Row::view(0x645, H, PENDING, VS_INTERRUPTS, VS_INTERRUPTS),
        Row::kept(0x64a, H, HTINST, ALL),
        Row { by_mode: MODE, ..Row::kept(0x680, H, HGATP, !HGATP_ZERO) },
        Row::zero(0xe12, H),
    ]
};

/// How many rows further the VS register of an S register stands.
const TO_VS: usize = 9;

// What is loaded unchecked is there: the words that the rows name, and the VS registers behind S's.
const _: () = {
    let mut place = 0;
    while place < ROWS.len() {
        let row = &ROWS[place];
        assert!((row.home as usize) < HART_WORDS && (row.gate as usize) < HART_WORDS);
        let is_s = matches!(row.level, Level::S);
        assert!(!is_s || ROWS[place + TO_VS].number == row.number + 0x100);
        place += 1;
    }
};

/// How many numbers there are.
const NUMBERS: u64 = 4096;

/// The registers' numbers.
static ROW_NUMBERS: [u16; ROWS.len()] = {
    let mut numbers = [0; ROWS.len()];
    let mut place = 0;
    while place < ROWS.len() {
        numbers[place] = ROWS[place].number;
        place += 1;
    }
    numbers
};

/// The place of the row with a number below 4096, by a binary search as the proved side makes one. A read of a random number, and
/// of a random register, took 14.3 ns and 15.7; by a `match` on the number 12.2 and 20.2, by a table of 4096 places 11.7 and 12.2.
#[inline(always)]
fn find(number: u64) -> Option<usize> {
    ROW_NUMBERS.binary_search(&(number as u16)).ok()
}

/// Whether a register has this number.
pub fn is_listed(number: u64) -> bool {
    number < NUMBERS && find(number).is_some()
}

/// A register access, written over `out`.
#[inline(always)]
pub fn access(hart: &HartWords, access: Access, out: &mut AccessWords) {
    let Access {
        form,
        number,
        value,
        writes,
        word,
    } = access;
    match form {
        Form::Read => read(hart, number, word, out),
        Form::Write => write(hart, number, value, word, out),
        Form::Set => set(hart, number, value, writes, word, out),
        Form::Clear => clear(hart, number, value, writes, word, out),
    }
}

/// Reads a register. Callgrind finds it and the other three by their symbols.
#[inline(never)]
#[export_name = "plain_read"]
fn read(hart: &HartWords, number: u64, word: u32, out: &mut AccessWords) {
    whole(hart, number, false, |old| old, word, out);
}

/// Writes a register.
#[inline(never)]
#[export_name = "plain_write"]
fn write(hart: &HartWords, number: u64, value: u64, word: u32, out: &mut AccessWords) {
    whole(hart, number, true, |_| value, word, out);
}

/// Sets bits of a register, if it writes.
#[inline(never)]
#[export_name = "plain_set"]
fn set(hart: &HartWords, number: u64, value: u64, writes: bool, word: u32, out: &mut AccessWords) {
    whole(hart, number, writes, |old| old | value, word, out);
}

/// Clears bits of a register, if it writes.
#[inline(never)]
#[export_name = "plain_clear"]
fn clear(
    hart: &HartWords,
    number: u64,
    value: u64,
    writes: bool,
    word: u32,
    out: &mut AccessWords,
) {
    whole(hart, number, writes, |old| old & !value, word, out);
}

/// An access that writes, if it does, what `new` makes of the old value.
#[inline(always)]
fn whole(
    hart: &HartWords,
    number: u64,
    writes: bool,
    new: impl Fn(u64) -> u64,
    word: u32,
    out: &mut AccessWords,
) {
    copy(hart, out);
    let [.., kind, code, answer] = out;
    if !passes(hart) {
        [*kind, *code, *answer] = [REFUSED, 2, 0];
        return;
    }
    if number >= NUMBERS {
        [*kind, *code, *answer] = [REFUSED, 5, 0];
        return;
    }
    match reached(hart, number, writes) {
        Ok(row) => {
            let old = row.read(hart);
            [*kind, *code, *answer] = [DONE, 0, old];
            if writes {
                row.write(hart, new(old), out);
            }
            out[PC] = hart[PC].wrapping_add(4);
        }
        Err(cause) => {
            [*kind, *code, *answer] = [TRAPPED, cause, 0];
            deliver(hart, cause, word.into(), out);
        }
    }
}

/// Copies a hart, in pieces for which the compiler calls no memcpy: that takes 1 to 3 ns longer.
#[inline(always)]
fn copy(hart: &HartWords, out: &mut AccessWords) {
    const PIECE: usize = 16;
    for start in [0, PIECE, 2 * PIECE] {
        let end = HART_WORDS.min(start + PIECE);
        out[start..end].copy_from_slice(&hart[start..end]);
    }
}

impl Row {
    /// What it shows.
    #[inline(always)]
    fn read(&self, hart: &HartWords) -> u64 {
        (self.home(hart) & self.shown & self.open(hart)) >> self.down
    }

    /// Stores what a write of the value does.
    #[inline(always)]
    fn write(&self, hart: &HartWords, value: u64, out: &mut AccessWords) {
        let mpp = (mpp_is_2(value) * 3) & self.by_mpp;
        let mode = wrong_mode(value).wrapping_neg() & self.by_mode;
        let stored = self.stored & self.open(hart) & !mpp & !mode;
        // SAFETY: it is a word of a hart, by the assertion behind the rows.
        let home = unsafe { out.get_unchecked_mut(usize::from(self.home)) };
        *home = self.home(hart) & !stored | value << self.down & stored;
    }

    /// The word that holds it.
    #[inline(always)]
    fn home(&self, hart: &HartWords) -> u64 {
        // SAFETY: it is a word of a hart, by the assertion behind the rows.
        unsafe { *hart.get_unchecked(usize::from(self.home)) }
    }

    /// The bits that its gate lets through.
    #[inline(always)]
    fn open(&self, hart: &HartWords) -> u64 {
        // SAFETY: it is a word of a hart, by the assertion behind the rows.
        let gate = unsafe { *hart.get_unchecked(usize::from(self.gate)) };
        gate | self.free
    }
}

// What an access comes to.
const DONE: u64 = 0;
const TRAPPED: u64 = 1;
const REFUSED: u64 = 2;

// Causes.
const ILLEGAL: u64 = 2;
const VIRTUAL: u64 = 22;

/// The register that an access reaches, or the cause of its trap.
#[inline(always)]
fn reached(hart: &HartWords, number: u64, writes: bool) -> Result<&'static Row, u64> {
    let place = find(number).ok_or(ILLEGAL)?;
    if writes && number == HGEIP_NUMBER {
        return Err(ILLEGAL);
    }
    // SAFETY: a place that is found is a row's.
    let row = unsafe { ROWS.get_unchecked(place) };
    match (hart[VIRTUALIZATION], hart[PRIVILEGE]) {
        (0, MACHINE) => Ok(row),
        (0, SUPERVISOR) => {
            let tvm = hart[MSTATUS] & TVM != 0 && matches!(number, SATP_NUMBER | HGATP_NUMBER);
            if row.level == Level::M || tvm {
                Err(ILLEGAL)
            } else {
                Ok(row)
            }
        }
        (0, _) => Err(ILLEGAL),
        (_, privilege) => match row.level {
            Level::M => Err(ILLEGAL),
            Level::S if privilege == USER => Err(VIRTUAL),
            Level::S if hart[HSTATUS] & VTVM != 0 && number == SATP_NUMBER => Err(VIRTUAL),
            // SAFETY: there is one so much further, by the assertion behind the rows.
            Level::S => Ok(unsafe { ROWS.get_unchecked(place + TO_VS) }),
            Level::Vs | Level::H => Err(VIRTUAL),
        },
    }
}

/// Delivers a trap whose value is the instruction's word: what changes of a hart, over its copy.
#[inline(always)]
fn deliver(hart: &HartWords, cause: u64, word: u64, out: &mut AccessWords) {
    let (v, privilege, pc) = (hart[VIRTUALIZATION], hart[PRIVILEGE], hart[PC]);
    let mstatus = hart[MSTATUS];
    if privilege == MACHINE || hart[MEDELEG] >> cause & 1 == 0 {
        out[VIRTUALIZATION] = 0;
        out[PRIVILEGE] = MACHINE;
        out[PC] = hart[MTVEC] & !EPC_ZERO;
        out[MSTATUS] = mstatus & !(MPV | GVA | MPP | MPIE | MIE)
            | (v * MPV)
            | privilege << MPP_LOW
            | (mstatus & MIE) << 4;
        out[MEPC] = pc;
        out[MCAUSE] = cause;
        out[MTVAL] = word;
        out[MTINST] = 0;
        out[MTVAL2] = 0;
    } else if v == 1 && hart[HEDELEG] >> cause & 1 == 1 {
        out[PRIVILEGE] = SUPERVISOR;
        out[PC] = hart[VSTVEC] & !EPC_ZERO;
        out[VSSTATUS] = supervised(hart[VSSTATUS], privilege);
        out[VSEPC] = pc;
        out[VSCAUSE] = cause;
        out[VSTVAL] = word;
    } else {
        let spvp = if v == 1 { SPVP } else { 0 };
        out[VIRTUALIZATION] = 0;
        out[PRIVILEGE] = SUPERVISOR;
        out[PC] = hart[STVEC] & !EPC_ZERO;
        out[MSTATUS] = supervised(mstatus, privilege);
        out[HSTATUS] = hart[HSTATUS] & !(HSTATUS_GVA | SPV | spvp) | (v * SPV) | (privilege * spvp);
        out[SEPC] = pc;
        out[SCAUSE] = cause;
        out[STVAL] = word;
        out[HTVAL] = 0;
        out[HTINST] = 0;
    }
}

/// A status word after a trap from a privilege to HS or VS.
#[inline(always)]
fn supervised(status: u64, privilege: u64) -> u64 {
    status & !(SPP | SPIE | SIE) | (privilege * SPP) | (status & SIE) << 4
}

#[cfg(test)]
mod tests {
    use super::{find, Level, NUMBERS, ROWS};

    #[test]
    fn each_number_finds_its_row_or_none() {
        for number in 0..NUMBERS {
            let place = ROWS.iter().position(|row| u64::from(row.number) == number);
            assert_eq!(find(number), place, "{number:x}");
        }
    }

    #[test]
    fn rising_numbers_and_so_many_of_each_level() {
        assert!(ROWS.is_sorted_by(|one, next| one.number < next.number));
        let count = |level| ROWS.iter().filter(|row| row.level == level).count();
        let levels = [Level::S, Level::Vs, Level::H, Level::M];
        assert_eq!(levels.map(count), [9, 9, 11, 12]);
    }
}
