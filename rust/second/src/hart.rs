//! The hart: its mode, its program counter, its thirty-one stored registers, and check 2.

use crate::bits::bit;
use crate::registers::{self, wrong, Row, Wrong, MPRV, ROWS};

/// The five modes.
#[derive(Clone, Copy, PartialEq, Eq, Debug, PartialOrd, Ord)]
pub enum Mode {
    /// V=0, privilege 0.
    U,
    /// V=0, privilege 1.
    Hs,
    /// V=0, privilege 3.
    M,
    /// V=1, privilege 0.
    Vu,
    /// V=1, privilege 1.
    Vs,
}

impl Mode {
    /// All five.
    pub const ALL: [Mode; 5] = [Mode::U, Mode::Hs, Mode::M, Mode::Vu, Mode::Vs];

    /// The mode with this V and this privilege, or none: V and privilege must be exactly one of the five pairs.
    pub fn of(v: u64, privilege: u64) -> Option<Mode> {
        match (v, privilege) {
            (0, 0) => Some(Mode::U),
            (0, 1) => Some(Mode::Hs),
            (0, 3) => Some(Mode::M),
            (1, 0) => Some(Mode::Vu),
            (1, 1) => Some(Mode::Vs),
            _ => None,
        }
    }

    /// The virtualization mode V.
    pub fn v(self) -> bool {
        matches!(self, Mode::Vu | Mode::Vs)
    }

    /// The privilege: 0, 1 or 3.
    pub fn privilege(self) -> u64 {
        match self {
            Mode::U | Mode::Vu => 0,
            Mode::Hs | Mode::Vs => 1,
            Mode::M => 3,
        }
    }

    /// The mode with this V and a privilege of U (false) or S (true), as SPP and SPV hold it.
    pub fn below_machine(v: bool, supervisor: bool) -> Mode {
        match (v, supervisor) {
            (false, false) => Mode::U,
            (false, true) => Mode::Hs,
            (true, false) => Mode::Vu,
            (true, true) => Mode::Vs,
        }
    }

    /// The mode that MPP and MPV name: "MPV unless MPP=3 (then 0)". MPP = 2 cannot be stored; it is read as 3.
    pub fn from_mpp(mpp: u64, mpv: bool) -> Mode {
        match mpp {
            0 => Mode::below_machine(mpv, false),
            1 => Mode::below_machine(mpv, true),
            _ => Mode::M,
        }
    }
}

/// What makes the model refuse a hart as 2.
#[derive(Clone, Copy, PartialEq, Eq, Debug)]
pub enum BadHart {
    /// V and the privilege are none of the five modes.
    Mode(u64, u64),
    /// A register holds what no write could store.
    Register(&'static Row, Wrong),
    /// pc is not a multiple of 4.
    Pc(u64),
    /// MPRV=1 outside M.
    MprvOutsideM,
}

/// A hart as it comes in: any numbers. [`Hart::check`] says whether the model takes it.
#[derive(Clone, Copy, PartialEq, Eq, Debug)]
#[allow(missing_docs)] // The registers carry their own names.
pub struct Hart {
    /// The virtualization mode V.
    pub v: u64,
    /// The privilege: 0 U, 1 S, 3 M.
    pub privilege: u64,
    /// The program counter.
    pub pc: u64,
    pub stvec: u64,
    pub sscratch: u64,
    pub sepc: u64,
    pub scause: u64,
    pub stval: u64,
    pub satp: u64,
    pub vsstatus: u64,
    pub vstvec: u64,
    pub vsscratch: u64,
    pub vsepc: u64,
    pub vscause: u64,
    pub vstval: u64,
    pub vsatp: u64,
    pub mstatus: u64,
    pub medeleg: u64,
    pub mideleg: u64,
    pub mie: u64,
    pub mtvec: u64,
    pub mscratch: u64,
    pub mepc: u64,
    pub mcause: u64,
    pub mtval: u64,
    pub mip: u64,
    pub mtinst: u64,
    pub mtval2: u64,
    pub hstatus: u64,
    pub hedeleg: u64,
    pub hideleg: u64,
    pub htval: u64,
    pub htinst: u64,
    pub hgatp: u64,
}

impl Hart {
    /// A hart in this mode at this pc, every stored register at its value after a write of 0.
    pub fn new(v: u64, privilege: u64, pc: u64) -> Hart {
        Hart {
            v,
            privilege,
            pc,
            stvec: 0,
            sscratch: 0,
            sepc: 0,
            scause: 0,
            stval: 0,
            satp: 0,
            vsstatus: 0x2_0000_0000,
            vstvec: 0,
            vsscratch: 0,
            vsepc: 0,
            vscause: 0,
            vstval: 0,
            vsatp: 0,
            mstatus: 0xa_0000_0000,
            medeleg: 0,
            mideleg: 0x444,
            mie: 0,
            mtvec: 0,
            mscratch: 0,
            mepc: 0,
            mcause: 0,
            mtval: 0,
            mip: 0,
            mtinst: 0,
            mtval2: 0,
            hstatus: 0x2_0000_0000,
            hedeleg: 0,
            hideleg: 0,
            htval: 0,
            htinst: 0,
            hgatp: 0,
        }
    }

    /// The content of the stored register with this number; none for a number that names no stored register.
    pub fn stored(&self, number: u64) -> Option<u64> {
        let mut copy = *self;
        copy.stored_mut(number).map(|content| *content)
    }

    /// The stored registers and their contents, in rising order of number.
    pub fn registers(&self) -> impl DoubleEndedIterator<Item = (&'static Row, u64)> {
        let mut copy = *self;
        let rows = ROWS.iter();
        rows.filter_map(move |row| Some((row, *copy.stored_mut(row.number)?)))
    }

    /// The place of the stored register with this number; none for a number that names no stored register.
    pub fn stored_mut(&mut self, number: u64) -> Option<&mut u64> {
        match number {
            registers::STVEC => Some(&mut self.stvec),
            registers::SSCRATCH => Some(&mut self.sscratch),
            registers::SEPC => Some(&mut self.sepc),
            registers::SCAUSE => Some(&mut self.scause),
            registers::STVAL => Some(&mut self.stval),
            registers::SATP => Some(&mut self.satp),
            registers::VSSTATUS => Some(&mut self.vsstatus),
            registers::VSTVEC => Some(&mut self.vstvec),
            registers::VSSCRATCH => Some(&mut self.vsscratch),
            registers::VSEPC => Some(&mut self.vsepc),
            registers::VSCAUSE => Some(&mut self.vscause),
            registers::VSTVAL => Some(&mut self.vstval),
            registers::VSATP => Some(&mut self.vsatp),
            registers::MSTATUS => Some(&mut self.mstatus),
            registers::MEDELEG => Some(&mut self.medeleg),
            registers::MIDELEG => Some(&mut self.mideleg),
            registers::MIE_REGISTER => Some(&mut self.mie),
            registers::MTVEC => Some(&mut self.mtvec),
            registers::MSCRATCH => Some(&mut self.mscratch),
            registers::MEPC => Some(&mut self.mepc),
            registers::MCAUSE => Some(&mut self.mcause),
            registers::MTVAL => Some(&mut self.mtval),
            registers::MIP => Some(&mut self.mip),
            registers::MTINST => Some(&mut self.mtinst),
            registers::MTVAL2 => Some(&mut self.mtval2),
            registers::HSTATUS => Some(&mut self.hstatus),
            registers::HEDELEG => Some(&mut self.hedeleg),
            registers::HIDELEG => Some(&mut self.hideleg),
            registers::HTVAL => Some(&mut self.htval),
            registers::HTINST => Some(&mut self.htinst),
            registers::HGATP => Some(&mut self.hgatp),
            _ => None,
        }
    }

    /// Check 2: the hart's mode if the model takes the hart, or what makes it refused as 2: "a mode not among the five, a
    /// register holding what no write could store, pc not a multiple of 4, or MPRV=1 outside M".
    pub fn check(&self) -> Result<Mode, BadHart> {
        let Some(mode) = Mode::of(self.v, self.privilege) else {
            return Err(BadHart::Mode(self.v, self.privilege));
        };
        if let Some((row, wrong)) = self.wrong_register() {
            return Err(BadHart::Register(row, wrong));
        }
        if !self.pc.is_multiple_of(4) {
            return Err(BadHart::Pc(self.pc));
        }
        if mode != Mode::M && bit(self.mstatus, MPRV) {
            return Err(BadHart::MprvOutsideM);
        }
        Ok(mode)
    }

    /// The hart's mode; none where the hart is refused.
    pub fn checked_mode(&self) -> Option<Mode> {
        self.check().ok()
    }

    /// The first stored register, in rising order of number, that holds what no write could store.
    fn wrong_register(&self) -> Option<(&'static Row, Wrong)> {
        let mut registers = self.registers();
        registers.find_map(|(row, content)| Some((row, wrong(row, content)?)))
    }

    /// The hart in another mode.
    pub fn in_mode(mut self, mode: Mode) -> Hart {
        self.v = u64::from(mode.v());
        self.privilege = mode.privilege();
        self
    }

    /// The hart after an instruction that is done: "moves pc on by 4, wrapping".
    pub fn moved_on(mut self) -> Hart {
        self.pc = self.pc.wrapping_add(4);
        self
    }
}

#[cfg(test)]
mod tests {
    use super::*;
    use crate::registers::{after_write, HGEIE, HGEIP};

    #[test]
    fn five_modes_and_no_other() {
        let numbers = [0, 1, 2, 3, 4, 0x100, 1 << 32, u64::MAX];
        for v in numbers {
            for privilege in numbers {
                let known = matches!((v, privilege), (0, 0) | (0, 1) | (0, 3) | (1, 0) | (1, 1));
                assert_eq!(Mode::of(v, privilege).is_some(), known);
                assert_eq!(Hart::new(v, privilege, 0).checked_mode().is_some(), known);
            }
        }
        for mode in Mode::ALL {
            assert_eq!(Mode::of(u64::from(mode.v()), mode.privilege()), Some(mode));
        }
    }

    #[test]
    fn thirty_one_registers_are_stored() {
        let hart = Hart::new(0, 3, 0);
        let stored = ROWS
            .iter()
            .filter(|row| hart.stored(row.number).is_some())
            .count();
        assert_eq!(stored, 31);
        for row in ROWS.iter().filter(|row| row.view.is_some()) {
            assert_eq!(hart.stored(row.number), None, "{}", row.name);
        }
        assert_eq!(hart.stored(HGEIE), None);
        assert_eq!(hart.stored(HGEIP), None);
        assert_eq!(hart.stored(0x1300), None);
    }

    #[test]
    fn a_new_hart_holds_what_a_write_of_0_stores() {
        let hart = Hart::new(1, 1, 8);
        for row in &ROWS {
            if let Some(content) = hart.stored(row.number) {
                assert_eq!(content, after_write(row, 0, 0), "{}", row.name);
            }
        }
    }

    #[test]
    fn the_place_of_each_register_is_its_own() {
        let mut hart = Hart::new(0, 3, 0);
        for row in &ROWS {
            if let Some(place) = hart.stored_mut(row.number) {
                *place = row.number;
            }
        }
        for row in &ROWS {
            if let Some(content) = hart.stored(row.number) {
                assert_eq!(content, row.number);
            }
        }
        assert_eq!((hart.satp, hart.vsatp, hart.mtval2), (0x180, 0x280, 0x34b));
        assert_eq!((hart.mideleg, hart.hideleg), (0x303, 0x603));
        assert_eq!((hart.mie, hart.mip), (0x304, 0x344));
    }

    #[test]
    fn pc_must_be_a_multiple_of_4() {
        for pc in 0..9 {
            let passes = Hart::new(0, 1, pc).checked_mode().is_some();
            assert_eq!(passes, pc % 4 == 0);
        }
        assert!(Hart::new(0, 1, u64::MAX - 3).checked_mode().is_some());
    }

    #[test]
    fn mprv_only_in_m() {
        for mode in Mode::ALL {
            let mut hart = Hart::new(0, 0, 0).in_mode(mode);
            hart.mstatus |= 1 << MPRV;
            assert_eq!(hart.checked_mode().is_some(), mode == Mode::M);
        }
    }

    /// Each register with each single bit flipped: the hart passes exactly when the register could hold that.
    #[test]
    fn each_bit_of_each_register_is_checked() {
        for row in &ROWS {
            for position in 0..64 {
                let mut hart = Hart::new(0, 3, 0);
                let Some(place) = hart.stored_mut(row.number) else {
                    continue;
                };
                *place ^= 1 << position;
                let content = *place;
                assert_eq!(
                    hart.checked_mode().is_some(),
                    wrong(row, content).is_none(),
                    "{} bit {position}",
                    row.name
                );
            }
        }
    }

    #[test]
    fn fixed_fields_are_part_of_the_stored_value() {
        for (number, low) in [
            (registers::MSTATUS, 32),
            (registers::MSTATUS, 34),
            (registers::VSSTATUS, 32),
            (registers::HSTATUS, 32),
        ] {
            for content in 0..4u64 {
                let mut hart = Hart::new(0, 3, 0);
                let place = hart.stored_mut(number).unwrap();
                *place = (*place & !(3 << low)) | (content << low);
                assert_eq!(hart.checked_mode().is_some(), content == 2);
            }
        }
    }

    /// The request's registers bit by bit: "Bits 2, 6 and 10 of mideleg read one; 1, 5 and 9 can be written", hideleg holds 2, 6
    /// and 10, mie and mip all nine.
    #[test]
    fn each_bit_of_the_registers_of_interrupts_is_checked() {
        let supervisor = [1, 5, 9];
        let vs = [2, 6, 10];
        let machine = [3, 7, 11];
        let nine = [supervisor, vs, machine].concat();
        for (number, from, free) in [
            (registers::MIDELEG, 0x444, &supervisor[..]),
            (registers::MIE_REGISTER, 0, &nine),
            (registers::MIP, 0, &nine),
            (registers::HIDELEG, 0, &vs),
        ] {
            for position in 0..64 {
                let mut hart = Hart::new(0, 3, 0);
                *hart.stored_mut(number).unwrap() = from ^ (1 << position);
                let passes = free.contains(&position);
                assert_eq!(hart.check().is_ok(), passes, "{number:x} bit {position}");
                let wrong = match number == registers::MIDELEG && vs.contains(&position) {
                    true => Wrong::ClearBit(position),
                    false => Wrong::Bit(position),
                };
                if !passes {
                    let row = registers::find(number).unwrap();
                    assert_eq!(hart.check(), Err(BadHart::Register(row, wrong)));
                }
            }
        }
    }

    /// "Document 01's stored bits and check 2 accept the new modes": 0, 8, 9 and 10 of sixteen.
    #[test]
    fn each_mode_of_satp_vsatp_and_hgatp_is_checked() {
        for number in [registers::SATP, registers::VSATP, registers::HGATP] {
            for mode in 0..16u64 {
                for low in [0, 0x0000_0fff_ffff_fffc] {
                    let mut hart = Hart::new(0, 3, 0);
                    *hart.stored_mut(number).unwrap() = (mode << 60) | low;
                    let passes = matches!(mode, 0 | 8 | 9 | 10);
                    assert_eq!(hart.checked_mode().is_some(), passes, "{number:x} {mode}");
                }
            }
        }
    }

    #[test]
    fn mpp_2_is_refused() {
        for mpp in 0..4 {
            let mut hart = Hart::new(0, 1, 0);
            hart.mstatus |= mpp << 11;
            assert_eq!(hart.checked_mode().is_some(), mpp != 2);
        }
    }

    /// "a mode not among the five, a register holding what no write could store, pc not a multiple of 4, or MPRV=1 outside M":
    /// with all four, they show one after the other.
    #[test]
    fn the_first_of_several_reasons_is_given() {
        let mut hart = Hart::new(0, 2, 6);
        hart.mstatus |= (1 << MPRV) | 1;
        hart.vsatp = 1 << 60;
        assert_eq!(hart.check(), Err(BadHart::Mode(0, 2)));
        hart.privilege = 1;
        let named = |hart: &Hart| match hart.check() {
            Err(BadHart::Register(row, _)) => row.name,
            other => panic!("no register but {other:?}"),
        };
        assert_eq!(named(&hart), "vsatp", "280 is before 300");
        hart.vsatp = 0;
        assert_eq!(named(&hart), "mstatus");
        hart.mstatus ^= 1;
        assert_eq!(hart.check(), Err(BadHart::Pc(6)));
        hart.pc = 8;
        assert_eq!(hart.check(), Err(BadHart::MprvOutsideM));
        hart.privilege = 3;
        assert_eq!(hart.check(), Ok(Mode::M));
    }

    #[test]
    fn pc_moves_on_by_4_and_wraps() {
        assert_eq!(Hart::new(0, 3, 0x80).moved_on().pc, 0x84);
        assert_eq!(Hart::new(0, 3, u64::MAX - 3).moved_on().pc, 0);
        assert_eq!(Hart::new(0, 3, u64::MAX).moved_on().pc, 3);
    }
}
