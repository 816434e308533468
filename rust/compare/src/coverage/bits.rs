//! Which bits of the registers of interrupts accesses have read, stored and left, through each number in each mode that reaches
//! it. What each register shows and writes is here once more, as the manual has it.

use std::collections::BTreeMap;
use std::fmt::Write as _;

use second::access::{Accessed, Action};
use second::hart::{Hart, Mode};
use second::registers::{
    HGEIE, HIDELEG, HIE, HIP, HVIP, MIDELEG, MIE_REGISTER, MIP, SIE_REGISTER, SIP, VSIE, VSIP,
};

use super::{add, count};
use crate::words::{form, FORMS};

/// A register of interrupts. Bits are given by their places in the home.
#[derive(Clone, Copy, Debug)]
pub struct Register {
    /// Its number.
    pub number: u64,
    /// The stored register whose bits it shows. (hgeie has none.)
    pub home: u64,
    /// The bits that it shows.
    shown: u64,
    /// The bits that it writes.
    written: u64,
    /// The register without whose bit it neither shows nor writes one.
    pub gate: Option<u64>,
    /// How many places lower it shows them.
    down: u32,
}

impl Register {
    /// What it reads as.
    pub fn read(&self, hart: &Hart) -> u64 {
        (content(hart, self.home) & self.shown & self.open(hart)) >> self.down
    }

    /// Writes a value to it.
    pub fn write(&self, hart: &mut Hart, value: u64) {
        let written = self.written & self.open(hart);
        if let Some(home) = hart.stored_mut(self.home) {
            *home = (*home & !written) | ((value << self.down) & written);
        }
    }

    /// The bits that its gate has.
    fn open(&self, hart: &Hart) -> u64 {
        self.gate.map_or(u64::MAX, |gate| content(hart, gate))
    }
}

/// What a stored register holds; 0 where none is stored.
pub fn content(hart: &Hart, number: u64) -> u64 {
    hart.stored(number).unwrap_or(0)
}

/// A register without a gate.
pub const fn register(number: u64, home: u64, shown: u64, written: u64) -> Register {
    Register {
        number,
        home,
        shown,
        written,
        gate: None,
        down: 0,
    }
}

/// A register that shows what another hands down.
const fn gated(number: u64, home: u64, written: u64, gate: u64, down: u32) -> Register {
    Register {
        gate: Some(gate),
        down,
        ..register(number, home, 0x222 << down, written)
    }
}

/// The twelve.
pub const REGISTERS: [Register; 12] = [
    gated(SIE_REGISTER, MIE_REGISTER, 0x222, MIDELEG, 0),
    gated(SIP, MIP, 0x002, MIDELEG, 0),
    gated(VSIE, MIE_REGISTER, 0x444, HIDELEG, 1),
    gated(VSIP, MIP, 0x004, HIDELEG, 1),
    register(MIDELEG, MIDELEG, 0x666, 0x222),
    register(MIE_REGISTER, MIE_REGISTER, 0xeee, 0xeee),
    register(MIP, MIP, 0xeee, 0x226),
    register(HIDELEG, HIDELEG, 0x444, 0x444),
    register(HIE, MIE_REGISTER, 0x444, 0x444),
    register(HGEIE, HGEIE, 0, 0),
    register(HIP, MIP, 0x444, 0x004),
    register(HVIP, MIP, 0x444, 0x444),
];

/// What a stored register holds at least.
pub fn least(number: u64) -> u64 {
    match number {
        MIDELEG => 0x444,
        _ => 0,
    }
}

/// What a stored register holds at most.
pub fn most(number: u64) -> u64 {
    match number {
        MIDELEG => 0x666,
        MIE_REGISTER | MIP => 0xeee,
        HIDELEG => 0x444,
        _ => 0,
    }
}

/// The register that a number reaches in a mode: in VS an S number its twin.
pub fn reached(number: u64, mode: Mode) -> Option<&'static Register> {
    let number = match (mode, number) {
        (Mode::M, _) => number,
        (Mode::Hs, MIDELEG | MIE_REGISTER | MIP) => return None,
        (Mode::Hs, _) => number,
        (Mode::Vs, SIE_REGISTER) => VSIE,
        (Mode::Vs, SIP) => VSIP,
        _ => return None,
    };
    REGISTERS.iter().find(|register| register.number == number)
}

/// What can come of a bit in an access.
const CASES: [&str; 9] = [
    "read as 0",
    "read as 1",
    "read as 0 while the home has 1",
    "1 stored",
    "0 stored",
    "1 written and not stored",
    "0 written and not stored",
    "1 written and not handed down",
    "0 written and not handed down",
];

/// Sets of bits, one for each case.
type Sets = [u64; CASES.len()];

/// The bits of which each case can come.
fn possible(register: &Register) -> Sets {
    let at = |bits: u64| bits >> register.down;
    let (ones, shown) = (at(most(register.home)), at(register.shown));
    let zeros = !at(least(register.home));
    let written = at(register.written);
    let closed = if register.gate.is_some() { shown } else { 0 };
    [
        !shown | zeros,
        shown & ones,
        ones & (!shown | closed),
        written,
        written,
        zeros & !written,
        ones & !written,
        closed,
        closed,
    ]
}

/// The bits of which each case came in an access that was done.
fn come(register: &Register, before: &Hart, action: Action, accessed: &Accessed) -> Sets {
    let old = accessed.old;
    let home = content(before, register.home) >> register.down;
    let home_after = content(&accessed.outcome.hart, register.home) >> register.down;
    let closed = (register.shown & !register.open(before)) >> register.down;
    let Some(value) = written(action, old) else {
        return [!old, old, home & !old, 0, 0, 0, 0, 0, 0];
    };
    let (to_1, to_0) = (value & !home, !value & home);
    let (left_0, left_1) = (to_1 & !home_after, to_0 & home_after);
    [
        !old,
        old,
        home & !old,
        to_1 & home_after,
        to_0 & !home_after,
        left_0 & !closed,
        left_1 & !closed,
        left_0 & closed,
        left_1 & closed,
    ]
}

/// The value that an access writes, if it does.
pub fn written(action: Action, old: u64) -> Option<u64> {
    match action {
        Action::Write(value) => Some(value),
        Action::Set {
            value,
            writes: true,
        } => Some(old | value),
        Action::Clear {
            value,
            writes: true,
        } => Some(old & !value),
        _ => None,
    }
}

/// What accesses to the registers of interrupts reached.
#[derive(Clone, Debug, Default, PartialEq, Eq)]
pub struct Bits {
    /// The bits of each case, by number and mode.
    pub cases: BTreeMap<(u64, Mode), Sets>,
    /// Accesses by number, mode and form.
    pub forms: BTreeMap<(u64, Mode, &'static str), u64>,
}

impl Bits {
    /// Notes an access of a hart in this mode.
    pub fn note(
        &mut self,
        before: &Hart,
        mode: Mode,
        number: u64,
        action: Action,
        accessed: &Accessed,
    ) {
        if let Some(register) = reached(number, mode) {
            count(&mut self.forms, (number, mode, form(action)));
            self.join((number, mode), &come(register, before, action, accessed));
        }
    }

    fn join(&mut self, key: (u64, Mode), sets: &Sets) {
        let known = self.cases.entry(key).or_default();
        for (known, more) in known.iter_mut().zip(sets) {
            *known |= more;
        }
    }

    /// Adds another's.
    pub fn add(&mut self, other: &Bits) {
        for (key, sets) in &other.cases {
            self.join(*key, sets);
        }
        add(&mut self.forms, &other.forms);
    }

    /// What came of each case that can come, by number and mode: the bits that can, and those that did.
    fn sets(&self) -> Vec<(u64, Mode, usize, u64, u64)> {
        let mut sets = Vec::new();
        for (number, mode, register) in all() {
            let come = self.cases.get(&(number, mode)).copied().unwrap_or_default();
            for (case, possible) in possible(register).into_iter().enumerate() {
                sets.push((number, mode, case, possible, possible & come[case]));
            }
        }
        sets
    }

    /// What must be reached and was not.
    pub fn missing(&self) -> Vec<String> {
        let mut missing = Vec::new();
        for (number, mode, case, possible, come) in self.sets() {
            if come != possible {
                let (bits, case) = (possible & !come, CASES[case]);
                missing.push(format!("bits {bits:x} of {number:x} in {mode:?}: {case}"));
            }
        }
        for (number, mode, _) in all() {
            for form in FORMS {
                if !self.forms.contains_key(&(number, mode, form)) {
                    missing.push(format!("{form} of {number:x} in {mode:?}"));
                }
            }
        }
        missing
    }

    /// The counts, for people.
    pub fn table(&self, text: &mut String) {
        let sets = self.sets();
        let bits = |of: fn(&(u64, Mode, usize, u64, u64)) -> u64| {
            sets.iter().map(|set| of(set).count_ones()).sum::<u32>()
        };
        let _ = writeln!(
            text,
            "bits of the registers of interrupts, by number, mode and what came of them: {} of {}; forms of access: {} of {}",
            bits(|set| set.4),
            bits(|set| set.3),
            self.forms.len(),
            all().len() * FORMS.len()
        );
    }
}

/// Each number in each mode that reaches it.
fn all() -> Vec<(u64, Mode, &'static Register)> {
    let numbers = REGISTERS.iter().map(|register| register.number);
    let in_modes = numbers.flat_map(|number| Mode::ALL.map(|mode| (number, mode)));
    let all = in_modes.filter_map(|(number, mode)| Some((number, mode, reached(number, mode)?)));
    all.collect()
}

#[cfg(test)]
mod tests {
    use super::*;
    use second::access::access;

    #[test]
    fn twelve_numbers_in_three_modes() {
        let count = |of: Mode| all().iter().filter(|(_, mode, _)| *mode == of).count();
        assert_eq!(Mode::ALL.map(count), [0, 9, 12, 0, 2]);
    }

    /// Extremes of home, gate and value reach every case, and no case that can't be.
    #[test]
    fn what_is_possible_is_what_comes() {
        let mut bits = Bits::default();
        for (number, mode, register) in all() {
            for setting in 0..8u32 {
                let extreme = |place: u32, number| match (setting >> place) & 1 {
                    0 => least(number),
                    _ => most(number),
                };
                let mut hart = Hart::new(0, 0, 0).in_mode(mode);
                for (place, number) in [(0, Some(register.home)), (1, register.gate)] {
                    if let Some(held) = number.and_then(|number| hart.stored_mut(number)) {
                        *held = extreme(place, number.unwrap());
                    }
                }
                let value = if setting & 4 == 4 { u64::MAX } else { 0 };
                let action = Action::Write(value);
                let done = access(&hart, number, action, 0);
                bits.note(&hart, mode, number, action, &done);
            }
        }
        for (number, mode, register) in all() {
            let come = bits.cases[&(number, mode)];
            assert_eq!(come, possible(register), "{number:x} in {mode:?}");
        }
        let missing = bits.missing();
        assert_eq!(missing.len(), all().len() * 5, "the other forms");
    }

    #[test]
    fn a_bit_that_is_not_handed_down() {
        let mut bits = Bits::default();
        let mut hart = Hart::new(1, 1, 0);
        hart.mip = 0x004;
        let action = Action::Write(0x220);
        let done = access(&hart, SIP, action, 0);
        bits.note(&hart, Mode::Vs, SIP, action, &done);
        let come = bits.cases[&(SIP, Mode::Vs)];
        assert_eq!(come[2..], [0x002, 0, 0, 0, 0, 0x220, 0x002]);
        assert_eq!(bits.forms.len(), 1);
    }
}
