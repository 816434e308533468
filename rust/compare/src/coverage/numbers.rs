//! Which numbers accesses have looked up (request 2026-06): each one read in each mode, each one written, and numbers over 4095 whose
//! low bits are a register's.
//!
//! Which registers there are, who reaches them, what they read as and what a write leaves is here once more, without the second
//! program's lookup. What came out otherwise, or was not shown by the next line, counts for nothing.

use std::collections::BTreeMap;
use std::fmt::Write as _;

use second::access::Action;
use second::hart::{Hart, Mode};
use second::registers::{Level, HGEIE, HGEIP, HIP, HVIP, MCAUSE, MSTATUS, SSTATUS};
use second::script::{Answer, Line};
use second::trap::Ending;

use super::bits::{self, register, written, Register};
use super::{add, count, table_of_kinds, Before};
use crate::words::form;

/// The last number that is not refused.
pub const LAST: u64 = 0xfff;

/// The forms of access that write.
const WRITING: [&str; 3] = ["write", "set 1", "clear 1"];

/// What numbers can reach.
#[derive(Clone, Copy, Debug, PartialEq, Eq, PartialOrd, Ord)]
#[allow(missing_docs)] // The fields carry the names of what they say.
pub enum Case {
    /// A read that answered what the register held, or trapped with the cause that the rules give.
    Read { number: u64, mode: Mode },
    /// An access that wrote, and stored what it must in that register alone, or trapped so.
    Written {
        number: u64,
        mode: Mode,
        form: &'static str,
    },
    /// An access by a number over 4095 that was refused as 5.
    Over { number: u64 },
}

/// The numbers of the registers, by whose they are: document 01's list, and request 2026-01's.
const LISTS: [(Level, &[u64]); 4] = [
    (
        Level::S,
        &[
            0x100, 0x104, 0x105, 0x140, 0x141, 0x142, 0x143, 0x144, 0x180,
        ],
    ),
    (
        Level::Vs,
        &[
            0x200, 0x204, 0x205, 0x240, 0x241, 0x242, 0x243, 0x244, 0x280,
        ],
    ),
    (
        Level::M,
        &[
            0x300, 0x302, 0x303, 0x304, 0x305, 0x340, 0x341, 0x342, 0x343, 0x344, 0x34a, 0x34b,
        ],
    ),
    (
        Level::H,
        &[
            0x600, 0x602, 0x603, 0x604, 0x607, 0x643, 0x644, 0x645, 0x64a, 0x680, 0xe12,
        ],
    ),
];

/// Whose register a number is.
pub fn level(number: u64) -> Option<Level> {
    let mut lists = LISTS.iter();
    let list = lists.find(|(_, numbers)| numbers.contains(&number));
    list.map(|(level, _)| *level)
}

/// The numbers of the registers.
pub fn registers() -> impl Iterator<Item = u64> {
    LISTS
        .iter()
        .flat_map(|(_, numbers)| numbers.iter().copied())
}

/// The number of the register that an access reaches with TVM and VTVM clear, or the cause that it traps with.
pub fn reached(mode: Mode, number: u64, writes: bool) -> Result<u64, u64> {
    match (mode, level(number)) {
        (_, None) => Err(2),
        (_, Some(_)) if number == HGEIP && writes => Err(2),
        (Mode::M, Some(_)) => Ok(number),
        (_, Some(Level::M)) | (Mode::U, Some(_)) => Err(2),
        (Mode::Hs, Some(_)) => Ok(number),
        (Mode::Vs, Some(Level::S)) => Ok(number + 0x100),
        (Mode::Vs | Mode::Vu, Some(_)) => Err(22),
    }
}

/// "sstatus is mstatus's SIE, SPIE, SPP, SUM, MXR and UXL", which can't be written.
const SSTATUS_BITS: Register = register(SSTATUS, MSTATUS, 0x3_000c_0122, 0xc_0122);

/// The register as one that shows bits of another, if it is one of interrupts or sstatus.
fn shown_bits(number: u64) -> Option<&'static Register> {
    let mut all = bits::REGISTERS.iter().chain([&SSTATUS_BITS]);
    all.find(|register| register.number == number)
}

/// What a register reads as.
pub fn content(hart: &Hart, number: u64) -> u64 {
    match shown_bits(number) {
        Some(register) => register.read(hart),
        None => bits::content(hart, number),
    }
}

/// Registers that always read alike.
const ALIKE: [(u64, u64); 4] = [(HIP, HVIP), (HVIP, HIP), (HGEIE, HGEIP), (HGEIP, HGEIE)];

/// Whether a register reads otherwise than each other one that can.
pub fn differs(hart: &Hart, number: u64) -> bool {
    let own = content(hart, number);
    registers()
        .filter(|other| *other != number && !ALIKE.contains(&(number, *other)))
        .all(|other| content(hart, other) != own)
}

/// The hart after an access to a register that writes a value that it can hold, or none.
fn after(hart: &Hart, number: u64, value: Option<u64>) -> Hart {
    let mut after = *hart;
    after.pc = hart.pc.wrapping_add(4);
    match (value, shown_bits(number)) {
        (None, _) => {}
        (Some(value), Some(register)) => register.write(&mut after, value),
        (Some(value), None) => {
            if let Some(held) = after.stored_mut(number) {
                *held = value;
            }
        }
    }
    after
}

/// What is added to a register's number: each multiple of 4096 up to eight of them, and each higher bit.
fn above() -> impl Iterator<Item = u64> {
    let bits = (16..64).map(|bit| 1 << bit);
    (1..=8).map(|times| times << 12).chain(bits)
}

/// All cases.
pub fn all() -> Vec<Case> {
    let mut all = Vec::new();
    for mode in Mode::ALL {
        all.extend((0..=LAST).map(|number| Case::Read { number, mode }));
    }
    for mode in Mode::ALL {
        let there = |number: &u64| mode == Mode::M || reached(mode, *number, true).is_ok();
        for number in (0..=LAST).filter(there) {
            all.extend(WRITING.map(|form| Case::Written { number, mode, form }));
        }
    }
    for listed in registers() {
        all.extend(above().map(|above| Case::Over {
            number: listed + above,
        }));
    }
    all
}

/// The kind of a case, for the table.
fn kind(case: &Case) -> &'static str {
    match case {
        Case::Read { .. } => "read, by mode",
        Case::Written { .. } => "written, set and cleared",
        Case::Over { .. } => "over 4095",
    }
}

/// What the next line must show.
#[derive(Clone, Debug, PartialEq, Eq)]
enum Sign {
    /// `show` this hart.
    Hart(Box<Hart>),
    /// `read` of mcause this cause.
    Cause(u64),
}

impl Sign {
    /// Whether a line and its answer show it.
    fn is_shown(&self, line: &Line, answer: &Answer) -> bool {
        match (self, line, answer) {
            (Sign::Hart(expected), Line::Show, Answer::Hart(hart)) => hart == &**expected,
            (
                Sign::Cause(cause),
                Line::Register {
                    number: MCAUSE,
                    action: Action::Read,
                    ..
                },
                Answer::Register(accessed),
            ) => (accessed.outcome.ending, accessed.old) == (Ending::Done, *cause),
            _ => false,
        }
    }
}

/// The case of an access to a number up to 4095, if it is one.
fn case_of(mode: Mode, number: u64, action: Action) -> Option<Case> {
    let form = form(action);
    match action {
        Action::Read => Some(Case::Read { number, mode }),
        _ if WRITING.contains(&form) => Some(Case::Written { number, mode, form }),
        _ => None,
    }
}

/// What must come of such an access: its answer, and what shows the rest. None where that would show too little: another register
/// reads the same, a write changes nothing (but to hgeie, which never does), or mcause holds the cause before.
fn expected(hart: &Hart, mode: Mode, number: u64, action: Action) -> Option<(u64, Sign)> {
    let (old, sign, shows) = match reached(mode, number, action.writes()) {
        Err(cause) => (0, Sign::Cause(cause), hart.mcause != cause),
        Ok(register) => {
            let old = content(hart, register);
            let done = after(hart, register, written(action, old));
            let changes = done != after(hart, register, None);
            let shows = changes || !action.writes() || register == HGEIE;
            let shows = shows && differs(hart, register);
            (old, Sign::Hart(Box::new(done)), shows)
        }
    };
    shows.then_some((old, sign))
}

/// Counts of what numbers reached.
#[derive(Clone, Debug, Default, PartialEq, Eq)]
pub struct Numbers {
    /// The cases.
    pub cases: BTreeMap<Case, u64>,
    awaited: Option<(Case, Sign)>,
}

impl Numbers {
    /// Whether a case was reached.
    pub fn has(&self, case: &Case) -> bool {
        self.cases.contains_key(case)
    }

    /// Notes a line of a script, what it met and its answer.
    pub fn note(&mut self, line: &Line, before: &Before, answer: &Answer) {
        if let Some((case, sign)) = self.awaited.take() {
            if sign.is_shown(line, answer) {
                count(&mut self.cases, case);
            }
        }
        let (Line::Register { number, action, .. }, Answer::Register(accessed)) = (line, answer)
        else {
            return;
        };
        let (number, hart) = (*number, &before.hart);
        let Some(mode) = hart.checked_mode() else {
            return;
        };
        if number > LAST {
            if accessed.outcome.ending == Ending::Refused(5) {
                count(&mut self.cases, Case::Over { number });
            }
        } else if let Some(case) = case_of(mode, number, *action) {
            let expected = expected(hart, mode, number, *action);
            let answered = expected.filter(|(old, _)| *old == accessed.old);
            self.awaited = answered.map(|(_, sign)| (case, sign));
        }
    }

    /// Adds another's counts.
    pub fn add(&mut self, other: &Numbers) {
        add(&mut self.cases, &other.cases);
    }

    /// What must be reached and was not.
    pub fn missing(&self) -> Vec<String> {
        let missing = all().into_iter().filter(|case| !self.has(case));
        missing
            .map(|case| format!("of numbers: {}", describe(&case)))
            .collect()
    }

    /// The counts, for people.
    pub fn table(&self, text: &mut String) {
        let kinds = table_of_kinds(all().iter().map(|case| (kind(case), self.has(case))));
        let _ = writeln!(text, "numbers of registers: {kinds}");
    }
}

/// A case, for people.
fn describe(case: &Case) -> String {
    match case {
        Case::Read { number, mode } => format!("read of {number:x} in {mode}"),
        Case::Written { number, mode, form } => format!("{form} of {number:x} in {mode}"),
        Case::Over { number } => format!("{number:x} refused as 5"),
    }
}

#[cfg(test)]
mod tests {
    use super::super::tests::notes;
    use super::*;
    use second::registers::ROWS;

    /// What the lines of a script reach.
    fn noted(script: &str) -> Vec<Case> {
        let numbers = notes(script, |_| {}, Numbers::note);
        numbers.cases.into_keys().collect()
    }

    fn read(number: u64, mode: Mode) -> Case {
        Case::Read { number, mode }
    }

    fn written(number: u64, mode: Mode, form: &'static str) -> Case {
        Case::Written { number, mode, form }
    }

    #[test]
    fn what_there_is() {
        let all = all();
        let count = |of: &str| all.iter().filter(|case| kind(case) == of).count();
        assert_eq!(count("read, by mode"), 5 * 4096);
        // In HS 29 but for hgeip, in VS nine.
        assert_eq!(count("written, set and cleared"), 3 * (4096 + 28 + 9));
        assert_eq!(count("over 4095"), 41 * (8 + 48));
        let mut once = all.clone();
        once.sort();
        once.dedup();
        assert_eq!(once.len(), all.len());
        assert_eq!(Numbers::default().missing().len(), all.len());
    }

    #[test]
    fn the_list_of_registers_is_that_of_the_second_program() {
        let listed = registers().map(|number| (number, level(number)));
        let rows = ROWS.iter().map(|row| (row.number, Some(row.level)));
        assert!(listed.eq(rows));
    }

    /// Contents that differ from each other wherever they can.
    const DIFFERENT: &str =
        "reg 105 105;reg 140 140;reg 141 144;reg 142 142;reg 143 143;reg 180 180;\
        reg 200 200000020;reg 205 205;reg 240 2400;reg 241 248;reg 242 242;reg 243 243;reg 280 280;\
        reg 300 a00000122;reg 302 302;reg 303 666;reg 304 406;reg 305 305;reg 340 340;reg 341 348;\
        reg 342 342;reg 343 343;reg 344 240;reg 34a 34a;reg 34b 34b;reg 600 200000040;reg 602 1;\
        reg 603 444;reg 643 643;reg 64a 64a;reg 680 680";

    /// What the lines of a script reach, by a hart with these contents.
    fn noted_by(hart: &str, script: &str) -> Vec<Case> {
        noted(&format!("{hart};{DIFFERENT};{script}"))
    }

    #[test]
    fn a_done_access_counts_where_the_hart_is_shown() {
        let (m, vs) = ("hart 0 3 0", "hart 1 1 0");
        for (hart, script, case) in [
            (m, "read 142 0;show", read(0x142, Mode::M)),
            (vs, "read 142 0;show", read(0x142, Mode::Vs)),
            (m, "read e12 0;show", read(HGEIP, Mode::M)),
            (m, "write 142 5 0;show", written(0x142, Mode::M, "write")),
            (
                m,
                "set 100 40000 1 0;show",
                written(SSTATUS, Mode::M, "set 1"),
            ),
            (m, "write 607 5 0;show", written(HGEIE, Mode::M, "write")),
            (
                vs,
                "clear 142 2 1 0;show",
                written(0x142, Mode::Vs, "clear 1"),
            ),
        ] {
            assert_eq!(noted_by(hart, script), [case], "{hart};{script}");
        }
        for (hart, script) in [
            (m, "read 142 0;read 342 0"),
            (m, "read 142 0;reg 142 5;show"),
            (m, "read 142 0;wfi 0;show"),
            (m, "set 142 5 0 0;show"),
            // Another register reads the same.
            (m, "reg 140 142;read 142 0;show"),
            // What is there, and what can't be stored.
            (m, "write 142 142 0;show"),
            (m, "write 105 2 0;show"),
            // TVM, and a hart that is refused.
            ("hart 0 1 0", "reg 300 a00100122;read 180 0;show"),
            ("hart 0 3 2", "read 142 0;show"),
        ] {
            assert_eq!(noted_by(hart, script), [], "{hart};{script}");
        }
    }

    #[test]
    fn a_trap_counts_where_its_cause_is_read() {
        for (script, case) in [
            ("read fff 0;read 342 0", read(0xfff, Mode::M)),
            ("hart 1 0 0;read 100 0;read 342 0", read(0x100, Mode::Vu)),
            ("write e12 5 0;read 342 0", written(HGEIP, Mode::M, "write")),
            ("set 0 5 1 0;read 342 0", written(0, Mode::M, "set 1")),
        ] {
            assert_eq!(noted(script), [case], "{script}");
        }
        for script in [
            "read fff 0;show",
            "read fff 0;read 343 0",
            "reg 342 2;read fff 0;read 342 0",
            // Into HS.
            "hart 0 0 0;reg 302 4;read fff 0;read 342 0",
        ] {
            assert_eq!(noted(script), [], "{script}");
        }
    }

    #[test]
    fn another_row_counts_for_nothing() {
        let with = |change: fn(&mut Answer), script: &str| {
            let script = format!("{DIFFERENT};{script}");
            notes(&script, change, Numbers::note).cases.len()
        };
        let of_stval = |answer: &mut Answer| {
            if let Answer::Register(accessed) = answer {
                accessed.old = 0x143;
            }
        };
        let into_stval = |answer: &mut Answer| {
            if let Answer::Hart(hart) = answer {
                (hart.scause, hart.stval) = (0x142, 5);
            }
        };
        for script in [
            "read 142 0;show",
            "write 142 5 0;show",
            "read fff 0;read 342 0",
        ] {
            assert_eq!(with(|_| {}, script), 1, "{script}");
            assert_eq!(with(of_stval, script), 0, "{script}");
        }
        assert_eq!(with(into_stval, "write 142 5 0;show"), 0);
    }

    #[test]
    fn a_number_over_4095_counts_where_it_is_refused() {
        let over = [0x1300, 0x8000_0000_0000_0e12].map(|number| Case::Over { number });
        assert_eq!(noted("read 1300 0;write 8000000000000e12 5 0"), over);
        assert!(over.iter().all(|case| all().contains(case)));
        assert_eq!(noted("hart 0 3 2;read 1300 0"), []);
    }
}
