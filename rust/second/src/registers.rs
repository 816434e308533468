//! "Twenty-nine registers", and the twelve of change request 2026-01: their numbers, their stored bits and what a write stores.
//!
//! Thirty-one of the forty-one are stored. Eight are views: sstatus of mstatus, sie, hie and vsie of mie, sip, hip, hvip and vsip
//! of mip. hgeie and hgeip are the constant 0.

use crate::bits::{bit, field, with_field};

/// sstatus, a view of mstatus.
pub const SSTATUS: u64 = 0x100;
/// sie, a view of mie.
pub const SIE_REGISTER: u64 = 0x104;
/// stvec.
pub const STVEC: u64 = 0x105;
/// sscratch.
pub const SSCRATCH: u64 = 0x140;
/// sepc.
pub const SEPC: u64 = 0x141;
/// scause.
pub const SCAUSE: u64 = 0x142;
/// stval.
pub const STVAL: u64 = 0x143;
/// sip, a view of mip.
pub const SIP: u64 = 0x144;
/// satp.
pub const SATP: u64 = 0x180;
/// vsstatus.
pub const VSSTATUS: u64 = 0x200;
/// vsie, a view of hie.
pub const VSIE: u64 = 0x204;
/// vstvec.
pub const VSTVEC: u64 = 0x205;
/// vsscratch.
pub const VSSCRATCH: u64 = 0x240;
/// vsepc.
pub const VSEPC: u64 = 0x241;
/// vscause.
pub const VSCAUSE: u64 = 0x242;
/// vstval.
pub const VSTVAL: u64 = 0x243;
/// vsip, a view of hip.
pub const VSIP: u64 = 0x244;
/// vsatp.
pub const VSATP: u64 = 0x280;
/// mstatus.
pub const MSTATUS: u64 = 0x300;
/// medeleg.
pub const MEDELEG: u64 = 0x302;
/// mideleg.
pub const MIDELEG: u64 = 0x303;
/// mie.
pub const MIE_REGISTER: u64 = 0x304;
/// mtvec.
pub const MTVEC: u64 = 0x305;
/// mscratch.
pub const MSCRATCH: u64 = 0x340;
/// mepc.
pub const MEPC: u64 = 0x341;
/// mcause.
pub const MCAUSE: u64 = 0x342;
/// mtval.
pub const MTVAL: u64 = 0x343;
/// mip.
pub const MIP: u64 = 0x344;
/// mtinst.
pub const MTINST: u64 = 0x34a;
/// mtval2.
pub const MTVAL2: u64 = 0x34b;
/// hstatus.
pub const HSTATUS: u64 = 0x600;
/// hedeleg.
pub const HEDELEG: u64 = 0x602;
/// hideleg.
pub const HIDELEG: u64 = 0x603;
/// hie, a view of mie.
pub const HIE: u64 = 0x604;
/// hgeie, 0.
pub const HGEIE: u64 = 0x607;
/// htval.
pub const HTVAL: u64 = 0x643;
/// hip, a view of mip.
pub const HIP: u64 = 0x644;
/// hvip, a view of mip.
pub const HVIP: u64 = 0x645;
/// htinst.
pub const HTINST: u64 = 0x64a;
/// hgatp.
pub const HGATP: u64 = 0x680;
/// hgeip, read-only, 0.
pub const HGEIP: u64 = 0xe12;

/// mstatus and vsstatus bit SIE.
pub const SIE: u32 = 1;
/// mstatus bit MIE.
pub const MIE: u32 = 3;
/// mstatus and vsstatus bit SPIE.
pub const SPIE: u32 = 5;
/// mstatus bit MPIE.
pub const MPIE: u32 = 7;
/// mstatus and vsstatus bit SPP.
pub const SPP: u32 = 8;
/// mstatus field MPP, bits 12:11: its low bit.
pub const MPP_LOW: u32 = 11;
/// mstatus field MPP: its width.
pub const MPP_WIDTH: u32 = 2;
/// mstatus bit MPRV.
pub const MPRV: u32 = 17;
/// mstatus and vsstatus bit SUM.
pub const SUM: u32 = 18;
/// mstatus and vsstatus bit MXR.
pub const MXR: u32 = 19;
/// mstatus bit TVM.
pub const TVM: u32 = 20;
/// mstatus bit TW.
pub const TW: u32 = 21;
/// mstatus bit TSR.
pub const TSR: u32 = 22;
/// mstatus bit GVA.
pub const MSTATUS_GVA: u32 = 38;
/// mstatus bit MPV.
pub const MPV: u32 = 39;

/// hstatus bit GVA.
pub const HSTATUS_GVA: u32 = 6;
/// hstatus bit SPV.
pub const SPV: u32 = 7;
/// hstatus bit SPVP.
pub const SPVP: u32 = 8;
/// hstatus bit HU.
pub const HU: u32 = 9;
/// hstatus bit VTVM.
pub const VTVM: u32 = 20;
/// hstatus bit VTW.
pub const VTW: u32 = 21;
/// hstatus bit VTSR.
pub const VTSR: u32 = 22;

/// The field UXL (mstatus, sstatus, vsstatus) or VSXL (hstatus), bits 33:32, holding 2.
const UXL_IS_2: u64 = 2 << 32;
/// The field SXL of mstatus, bits 35:34, holding 2.
const SXL_IS_2: u64 = 2 << 34;

/// The stored bits of mstatus: SIE, MIE, SPIE, MPIE, SPP, MPP, MPRV, SUM, MXR, TVM, TW, TSR, GVA, MPV.
const MSTATUS_STORED: u64 = (1 << SIE)
    | (1 << MIE)
    | (1 << SPIE)
    | (1 << MPIE)
    | (1 << SPP)
    | (3 << MPP_LOW)
    | (1 << MPRV)
    | (1 << SUM)
    | (1 << MXR)
    | (1 << TVM)
    | (1 << TW)
    | (1 << TSR)
    | (1 << MSTATUS_GVA)
    | (1 << MPV);
/// The stored bits of sstatus and of vsstatus: SIE, SPIE, SPP, SUM, MXR.
const SSTATUS_STORED: u64 = (1 << SIE) | (1 << SPIE) | (1 << SPP) | (1 << SUM) | (1 << MXR);
/// The stored bits of hstatus: GVA, SPV, SPVP, HU, VTVM, VTW, VTSR.
const HSTATUS_STORED: u64 = (1 << HSTATUS_GVA)
    | (1 << SPV)
    | (1 << SPVP)
    | (1 << HU)
    | (1 << VTVM)
    | (1 << VTW)
    | (1 << VTSR);
/// The stored bits of hedeleg.
const HEDELEG_STORED: u64 = 0xb1ff;
/// The stored bits of medeleg.
const MEDELEG_STORED: u64 = 0xf0_b7ff;
/// The supervisor's interrupts: software 1, timer 5, external 9. "1, 5 and 9 can be written" in mideleg.
const SUPERVISOR_INTERRUPTS: u64 = (1 << 1) | (1 << 5) | (1 << 9);
/// VS's interrupts: software 2, timer 6, external 10. "Bits 2, 6 and 10 of mideleg read one".
const VS_INTERRUPTS: u64 = (1 << 2) | (1 << 6) | (1 << 10);
/// The machine's interrupts: software 3, timer 7, external 11.
const MACHINE_INTERRUPTS: u64 = (1 << 3) | (1 << 7) | (1 << 11);
/// The nine interrupts, the bits of mie and mip.
const INTERRUPTS: u64 = SUPERVISOR_INTERRUPTS | VS_INTERRUPTS | MACHINE_INTERRUPTS;
/// VS's software interrupt, which mip, hip and vsip write too. VS's other two move through hvip only.
const VS_SOFTWARE: u64 = 1 << 2;
/// The supervisor's software interrupt, the one that sip writes.
const SUPERVISOR_SOFTWARE: u64 = 1 << 1;
/// "tvec: bit 1 cleared."
const TVEC_STORED: u64 = !0b10;
/// "epc: bits 1:0 cleared."
const EPC_STORED: u64 = !0b11;
/// hgatp: MODE 63:60, VMID 57:44 and PPN 43:0; "bits 59:58 and 1:0 are zero".
const HGATP_STORED: u64 = 0xf3ff_ffff_ffff_fffc;
/// "All others: 64 bits."
const ALL: u64 = u64::MAX;

/// The low bit of MODE in satp, vsatp and hgatp.
const MODE_LOW: u32 = 60;
/// The width of MODE in satp, vsatp and hgatp.
const MODE_WIDTH: u32 = 4;
/// MODE Bare.
pub const BARE: u64 = 0;
/// MODE Sv39 (satp, vsatp) or Sv39x4 (hgatp).
pub const SV39: u64 = 8;
/// MODE Sv48 (satp, vsatp) or Sv48x4 (hgatp).
pub const SV48: u64 = 9;
/// MODE Sv57 (satp, vsatp) or Sv57x4 (hgatp).
pub const SV57: u64 = 10;
/// What MODE may hold: 0 or 8, and "Document 01's stored bits and check 2 accept the new modes" (2026-05).
const MODES: [u64; 4] = [BARE, SV39, SV48, SV57];

/// Whose register it is.
#[derive(Clone, Copy, PartialEq, Eq, Debug)]
pub enum Level {
    /// One of S's nine.
    S,
    /// One of VS's nine.
    Vs,
    /// One of H's eleven.
    H,
    /// One of M's twelve.
    M,
}

/// One row of the table of registers.
#[derive(Clone, Copy, PartialEq, Eq, Debug)]
pub struct Row {
    /// The register's number.
    pub number: u64,
    /// The register's name.
    pub name: &'static str,
    /// Whose register it is.
    pub level: Level,
    /// Whether every write to it gives cause 2.
    pub read_only: bool,
    /// The bits that it can hold or show as 0 and as 1.
    pub stored: u64,
    /// What all the other bits read as.
    pub constant: u64,
    /// Whose bits it shows, where it has none of its own.
    pub view: Option<View>,
}

/// A register that shows bits of another one, its home: for interrupts, "numbers and other bits are as the manual has them". The
/// bits are given by their places in the home.
#[derive(Clone, Copy, PartialEq, Eq, Debug)]
pub struct View {
    /// The stored register whose bits it shows.
    pub home: u64,
    /// The bits that it shows.
    pub shown: u64,
    /// The ones among them that it also writes.
    pub written: u64,
    /// The stored register that lets it show and write a bit only where it has that bit itself, if there is one.
    pub gate: Option<u64>,
    /// How many places lower it shows them.
    pub down: u32,
}

impl View {
    /// What it shows: the home's bits where the gate has them, else zero.
    pub fn read(&self, home: u64, gate: u64) -> u64 {
        (home & self.shown & gate) >> self.down
    }

    /// The home after a write through the view: a bit that the gate lacks is not written.
    pub fn write(&self, home: u64, gate: u64, value: u64) -> u64 {
        let written = self.written & gate;
        (home & !written) | ((value << self.down) & written)
    }
}

/// A row of a register that is not read-only.
const fn row(number: u64, name: &'static str, level: Level, stored: u64, constant: u64) -> Row {
    Row {
        number,
        name,
        level,
        read_only: false,
        stored,
        constant,
        view: None,
    }
}

/// A row of a view.
const fn view(number: u64, name: &'static str, level: Level, constant: u64, view: View) -> Row {
    Row {
        view: Some(view),
        ..row(number, name, level, view.shown >> view.down, constant)
    }
}

/// "sstatus is mstatus's SIE, SPIE, SPP, SUM, MXR and UXL".
const SSTATUS_VIEW: View = View {
    home: MSTATUS,
    shown: SSTATUS_STORED,
    written: SSTATUS_STORED,
    gate: None,
    down: 0,
};
/// sie: mie's 1, 5 and 9 where mideleg has the bit.
const SIE_VIEW: View = View {
    home: MIE_REGISTER,
    shown: SUPERVISOR_INTERRUPTS,
    written: SUPERVISOR_INTERRUPTS,
    gate: Some(MIDELEG),
    down: 0,
};
/// sip: mip's 1, 5 and 9 where mideleg has the bit; 1 alone is written.
const SIP_VIEW: View = View {
    home: MIP,
    written: SUPERVISOR_SOFTWARE,
    ..SIE_VIEW
};
/// hie: mie's 2, 6 and 10.
const HIE_VIEW: View = View {
    home: MIE_REGISTER,
    shown: VS_INTERRUPTS,
    written: VS_INTERRUPTS,
    gate: None,
    down: 0,
};
/// hvip: mip's 2, 6 and 10.
const HVIP_VIEW: View = View {
    home: MIP,
    ..HIE_VIEW
};
/// hip: mip's 2, 6 and 10; 2 alone is written.
const HIP_VIEW: View = View {
    written: VS_SOFTWARE,
    ..HVIP_VIEW
};
/// vsie: hie's 2, 6 and 10, shown at 1, 5 and 9, where hideleg has the bit.
const VSIE_VIEW: View = View {
    gate: Some(HIDELEG),
    down: 1,
    ..HIE_VIEW
};
/// vsip: hip's 2, 6 and 10, shown at 1, 5 and 9, where hideleg has the bit; 2 alone is written.
const VSIP_VIEW: View = View {
    gate: Some(HIDELEG),
    down: 1,
    ..HIP_VIEW
};

/// The forty-one registers, in rising order of number.
pub const ROWS: [Row; 41] = [
    view(SSTATUS, "sstatus", Level::S, UXL_IS_2, SSTATUS_VIEW),
    view(SIE_REGISTER, "sie", Level::S, 0, SIE_VIEW),
    row(STVEC, "stvec", Level::S, TVEC_STORED, 0),
    row(SSCRATCH, "sscratch", Level::S, ALL, 0),
    row(SEPC, "sepc", Level::S, EPC_STORED, 0),
    row(SCAUSE, "scause", Level::S, ALL, 0),
    row(STVAL, "stval", Level::S, ALL, 0),
    view(SIP, "sip", Level::S, 0, SIP_VIEW),
    row(SATP, "satp", Level::S, ALL, 0),
    row(VSSTATUS, "vsstatus", Level::Vs, SSTATUS_STORED, UXL_IS_2),
    view(VSIE, "vsie", Level::Vs, 0, VSIE_VIEW),
    row(VSTVEC, "vstvec", Level::Vs, TVEC_STORED, 0),
    row(VSSCRATCH, "vsscratch", Level::Vs, ALL, 0),
    row(VSEPC, "vsepc", Level::Vs, EPC_STORED, 0),
    row(VSCAUSE, "vscause", Level::Vs, ALL, 0),
    row(VSTVAL, "vstval", Level::Vs, ALL, 0),
    view(VSIP, "vsip", Level::Vs, 0, VSIP_VIEW),
    row(VSATP, "vsatp", Level::Vs, ALL, 0),
    row(
        MSTATUS,
        "mstatus",
        Level::M,
        MSTATUS_STORED,
        UXL_IS_2 | SXL_IS_2,
    ),
    row(MEDELEG, "medeleg", Level::M, MEDELEG_STORED, 0),
    row(
        MIDELEG,
        "mideleg",
        Level::M,
        SUPERVISOR_INTERRUPTS,
        VS_INTERRUPTS,
    ),
    row(MIE_REGISTER, "mie", Level::M, INTERRUPTS, 0),
    row(MTVEC, "mtvec", Level::M, TVEC_STORED, 0),
    row(MSCRATCH, "mscratch", Level::M, ALL, 0),
    row(MEPC, "mepc", Level::M, EPC_STORED, 0),
    row(MCAUSE, "mcause", Level::M, ALL, 0),
    row(MTVAL, "mtval", Level::M, ALL, 0),
    row(MIP, "mip", Level::M, INTERRUPTS, 0),
    row(MTINST, "mtinst", Level::M, ALL, 0),
    row(MTVAL2, "mtval2", Level::M, ALL, 0),
    row(HSTATUS, "hstatus", Level::H, HSTATUS_STORED, UXL_IS_2),
    row(HEDELEG, "hedeleg", Level::H, HEDELEG_STORED, 0),
    row(HIDELEG, "hideleg", Level::H, VS_INTERRUPTS, 0),
    view(HIE, "hie", Level::H, 0, HIE_VIEW),
    row(HGEIE, "hgeie", Level::H, 0, 0),
    row(HTVAL, "htval", Level::H, ALL, 0),
    view(HIP, "hip", Level::H, 0, HIP_VIEW),
    view(HVIP, "hvip", Level::H, 0, HVIP_VIEW),
    row(HTINST, "htinst", Level::H, ALL, 0),
    row(HGATP, "hgatp", Level::H, HGATP_STORED, 0),
    Row {
        read_only: true,
        ..row(HGEIP, "hgeip", Level::H, 0, 0)
    },
];

/// The row of the register with this number, or none for an unlisted number.
pub fn find(number: u64) -> Option<&'static Row> {
    ROWS.iter().find(|row| row.number == number)
}

/// MPP of an mstatus.
pub fn mpp(mstatus: u64) -> u64 {
    field(mstatus, MPP_LOW, MPP_WIDTH)
}

/// An mstatus with MPP replaced.
pub fn with_mpp(mstatus: u64, mpp: u64) -> u64 {
    with_field(mstatus, MPP_LOW, MPP_WIDTH, mpp)
}

/// MODE of a satp, vsatp or hgatp.
pub fn atp_mode(atp: u64) -> u64 {
    field(atp, MODE_LOW, MODE_WIDTH)
}

/// PPN (bits 43:0) of a satp, vsatp or hgatp.
pub fn atp_ppn(atp: u64) -> u64 {
    field(atp, 0, 44)
}

/// How many levels the tables of a satp, vsatp or hgatp have: three with MODE 8, four with 9, five with 10; none where it is Bare.
/// (A hart with another MODE is refused.)
pub fn atp_levels(atp: u64) -> Option<u64> {
    match atp_mode(atp) {
        SV39 => Some(3),
        SV48 => Some(4),
        SV57 => Some(5),
        _ => None,
    }
}

/// "MODE 0 or 8", and 9 or 10.
fn mode_is_allowed(atp: u64) -> bool {
    MODES.contains(&atp_mode(atp))
}

/// What the stored register of this row holds after `value` is written to it while it held `old`.
pub fn after_write(row: &Row, old: u64, value: u64) -> u64 {
    match row.number {
        MSTATUS => mstatus_after_write(row, old, value),
        SATP | VSATP => atp_after_write(old, value),
        HGATP => hgatp_after_write(row, old, value),
        MIP => mip_after_write(old, value),
        _ => masked(row, value),
    }
}

/// "Stored bits": those of the value; "All other bits read 0", or 2 for UXL, SXL and VSXL.
fn masked(row: &Row, value: u64) -> u64 {
    (value & row.stored) | row.constant
}

/// mstatus: "writing 2 keeps the old MPP".
fn mstatus_after_write(row: &Row, old: u64, value: u64) -> u64 {
    let written = masked(row, value);
    if mpp(value) == 2 {
        with_mpp(written, mpp(old))
    } else {
        written
    }
}

/// satp, vsatp: "MODE 0 or 8", and 9 or 10, "else the whole write does nothing".
fn atp_after_write(old: u64, value: u64) -> u64 {
    if mode_is_allowed(value) {
        value
    } else {
        old
    }
}

/// hgatp: "MODE 63:60 is 0 or 8", and 9 or 10, "another MODE keeps the old one while VMID 57:44 and PPN 43:0 are written".
fn hgatp_after_write(row: &Row, old: u64, value: u64) -> u64 {
    let written = masked(row, value);
    if mode_is_allowed(value) {
        written
    } else {
        with_field(written, MODE_LOW, MODE_WIDTH, atp_mode(old))
    }
}

/// "mip's bits 3, 7 and 11 come in with the hart, pass check 2 and can't be written"; 6 and 10 are hvip's. The rest is written.
fn mip_after_write(old: u64, value: u64) -> u64 {
    let written = SUPERVISOR_INTERRUPTS | VS_SOFTWARE;
    (old & !written) | (value & written)
}

/// A field that can't hold every value.
#[derive(Clone, Copy, PartialEq, Eq, Debug)]
pub struct Field {
    /// The field's name.
    pub name: &'static str,
    /// Its lowest bit.
    low: u32,
    /// Its number of bits.
    width: u32,
    /// What it may hold.
    pub allowed: &'static [u64],
}

impl Field {
    /// What the field holds in a register's content.
    fn of(&self, content: u64) -> u64 {
        field(content, self.low, self.width)
    }

    /// The field's bits.
    fn mask(&self) -> u64 {
        with_field(0, self.low, self.width, u64::MAX)
    }

    /// A field of two bits that "reads 2".
    const fn reads_2(name: &'static str, low: u32) -> Field {
        Field {
            name,
            low,
            width: 2,
            allowed: &[2],
        }
    }
}

/// mstatus: MPP is never 2, "UXL 33:32 and SXL 35:34 read 2".
const MSTATUS_FIELDS: [Field; 3] = [
    Field {
        name: "MPP",
        low: MPP_LOW,
        width: MPP_WIDTH,
        allowed: &[0, 1, 3],
    },
    Field::reads_2("UXL", 32),
    Field::reads_2("SXL", 34),
];
/// sstatus shows UXL, and vsstatus holds its own.
const SSTATUS_FIELDS: [Field; 1] = [Field::reads_2("UXL", 32)];
/// hstatus: "VSXL 33:32 reads 2".
const HSTATUS_FIELDS: [Field; 1] = [Field::reads_2("VSXL", 32)];
/// satp, vsatp and hgatp: "MODE 0 or 8", and 9 or 10.
const ATP_FIELDS: [Field; 1] = [Field {
    name: "MODE",
    low: MODE_LOW,
    width: MODE_WIDTH,
    allowed: &MODES,
}];

/// The fields of a register that can't hold every value, from the lowest up.
fn limited_fields(row: &Row) -> &'static [Field] {
    match row.number {
        MSTATUS => &MSTATUS_FIELDS,
        SSTATUS | VSSTATUS => &SSTATUS_FIELDS,
        HSTATUS => &HSTATUS_FIELDS,
        SATP | VSATP | HGATP => &ATP_FIELDS,
        _ => &[],
    }
}

/// What makes a register hold what no write could store.
#[derive(Clone, Copy, PartialEq, Eq, Debug)]
pub enum Wrong {
    /// A field that holds what it may not, and what it holds.
    Field(&'static Field, u64),
    /// A bit that is always 0 is 1.
    Bit(u32),
    /// A bit that is always 1 is 0.
    ClearBit(u32),
}

impl Wrong {
    /// The lowest bit that it is about.
    fn low(self) -> u32 {
        match self {
            Wrong::Field(field, _) => field.low,
            Wrong::Bit(position) | Wrong::ClearBit(position) => position,
        }
    }
}

/// Part of check 2: the lowest field or bit of a register's content that no write could have stored; none where some write
/// could have stored it all.
pub fn wrong(row: &Row, content: u64) -> Option<Wrong> {
    let field = wrong_field(row, content);
    let bit = wrong_bit(row, content);
    field.into_iter().chain(bit).min_by_key(|wrong| wrong.low())
}

/// The lowest field that holds what it may not.
fn wrong_field(row: &Row, content: u64) -> Option<Wrong> {
    let fields = limited_fields(row).iter();
    let mut held = fields.map(|field| (field, field.of(content)));
    let (field, holds) = held.find(|(field, holds)| !field.allowed.contains(holds))?;
    Some(Wrong::Field(field, holds))
}

/// The lowest bit outside the stored ones and these fields that is not what it reads as: "All other bits read 0", and "Bits 2, 6
/// and 10 of mideleg read one".
fn wrong_bit(row: &Row, content: u64) -> Option<Wrong> {
    let fields = limited_fields(row).iter().map(Field::mask);
    let others = !fields.fold(row.stored, |bits, mask| bits | mask);
    let lowest = ((content ^ row.constant) & others).trailing_zeros();
    if lowest == u64::BITS {
        None
    } else if bit(row.constant, lowest) {
        Some(Wrong::ClearBit(lowest))
    } else {
        Some(Wrong::Bit(lowest))
    }
}

#[cfg(test)]
mod tests {
    use super::*;

    fn written(number: u64, old: u64, value: u64) -> u64 {
        after_write(find(number).unwrap(), old, value)
    }

    fn storable(number: u64, value: u64) -> bool {
        wrong(find(number).unwrap(), value).is_none()
    }

    #[test]
    fn the_table_has_the_papers_numbers() {
        let numbers: Vec<u64> = ROWS.iter().map(|row| row.number).collect();
        let paper = [
            0x100, 0x104, 0x105, 0x140, 0x141, 0x142, 0x143, 0x144, 0x180, 0x200, 0x204, 0x205,
            0x240, 0x241, 0x242, 0x243, 0x244, 0x280, 0x300, 0x302, 0x303, 0x304, 0x305, 0x340,
            0x341, 0x342, 0x343, 0x344, 0x34a, 0x34b, 0x600, 0x602, 0x603, 0x604, 0x607, 0x643,
            0x644, 0x645, 0x64a, 0x680, 0xe12,
        ];
        assert_eq!(numbers, paper);
        let count = |level| ROWS.iter().filter(|row| row.level == level).count();
        assert_eq!(
            [
                count(Level::S),
                count(Level::Vs),
                count(Level::H),
                count(Level::M)
            ],
            [9, 9, 11, 12]
        );
        let read_only: Vec<u64> = ROWS
            .iter()
            .filter(|row| row.read_only)
            .map(|row| row.number)
            .collect();
        assert_eq!(read_only, [HGEIP]);
        let views = ROWS.iter().filter(|row| row.view.is_some());
        let views: Vec<&str> = views.map(|row| row.name).collect();
        assert_eq!(
            views,
            ["sstatus", "sie", "sip", "vsie", "vsip", "hie", "hip", "hvip"]
        );
        assert!(find(0xfff).is_none());
        assert!(find(0x1100).is_none());
    }

    #[test]
    fn known_replays_of_all_ones() {
        assert_eq!(written(HEDELEG, 0, u64::MAX), 0xb1ff);
        assert_eq!(written(MEDELEG, 0, u64::MAX), 0xf0_b7ff);
        assert_eq!(written(HSTATUS, 0, u64::MAX), 0x2_0070_03c0);
        assert_eq!(written(VSSTATUS, 0, u64::MAX), 0x2_000c_0122);
        assert_eq!(written(MSTATUS, 0, u64::MAX), 0xca_007e_19aa);
        assert_eq!(written(HGATP, 0, u64::MAX), 0x03ff_ffff_ffff_fffc);
    }

    /// The request's four: mideleg holds 1, 5, 9 and always 2, 6, 10; mie all nine; a write to mip leaves 3, 6, 7, 10 and 11.
    #[test]
    fn all_ones_and_zero_written_to_the_registers_of_interrupts() {
        assert_eq!(written(MIDELEG, 0x444, u64::MAX), 0x666);
        assert_eq!(written(MIDELEG, 0x666, 0), 0x444);
        assert_eq!(written(MIE_REGISTER, 0, u64::MAX), 0xeee);
        assert_eq!(written(MIE_REGISTER, 0xeee, 0), 0);
        assert_eq!(written(HIDELEG, 0, u64::MAX), 0x444);
        assert_eq!(written(HIDELEG, 0x444, 0), 0);
        assert_eq!(written(MIP, 0, u64::MAX), 0x226);
        assert_eq!(written(MIP, 0xeee, 0), 0xcc8);
        assert_eq!(written(MIP, 0xcc8, u64::MAX), 0xeee);
    }

    #[test]
    fn views_show_and_write_their_bits_alone() {
        let all = u64::MAX;
        // The view, its gate, what it shows of all ones, and what all ones written to it leave in a home of all zeros.
        for (number, gate, shown, left) in [
            (SIE_REGISTER, 0x444, 0, 0),
            (SIE_REGISTER, 0x464, 0x020, 0x020),
            (SIE_REGISTER, 0x666, 0x222, 0x222),
            (SIP, 0x444, 0, 0),
            (SIP, 0x446, 0x002, 0x002),
            (SIP, 0x664, 0x220, 0),
            (SIP, 0x666, 0x222, 0x002),
            (HIE, all, 0x444, 0x444),
            (HIP, all, 0x444, 0x004),
            (HVIP, all, 0x444, 0x444),
            (VSIE, 0, 0, 0),
            (VSIE, 0x400, 0x200, 0x400),
            (VSIE, 0x444, 0x222, 0x444),
            (VSIP, 0, 0, 0),
            (VSIP, 0x004, 0x002, 0x004),
            (VSIP, 0x440, 0x220, 0),
            (VSIP, 0x444, 0x222, 0x004),
            (SSTATUS, all, 0xc_0122, 0xc_0122),
        ] {
            let row = find(number).unwrap();
            let view = row.view.unwrap();
            assert_eq!(view.read(all, gate), shown, "{} {gate:x}", row.name);
            assert_eq!(view.write(0, gate, all), left, "{} {gate:x}", row.name);
            assert_eq!(view.write(all, gate, 0), !left, "{} {gate:x}", row.name);
            assert_eq!(view.read(0, gate), 0);
        }
    }

    #[test]
    fn zero_written() {
        assert_eq!(written(MSTATUS, 0, 0), 0xa_0000_0000);
        assert_eq!(written(VSSTATUS, 0, 0), 0x2_0000_0000);
        assert_eq!(written(HSTATUS, 0, 0), 0x2_0000_0000);
        assert_eq!(written(HGATP, u64::MAX, 0), 0);
        assert_eq!(written(SATP, 0x8000_0000_0000_0001, 0), 0);
    }

    #[test]
    fn writing_mpp_2_keeps_the_old_one() {
        for old in [0, 1, 3] {
            let before = with_mpp(0xa_0000_0000, old);
            for new in 0..4 {
                let after = written(MSTATUS, before, (new << 11) | (1 << MIE));
                let expected = if new == 2 { old } else { new };
                assert_eq!(mpp(after), expected);
                assert_eq!(after, with_mpp(0xa_0000_0008, expected));
            }
        }
    }

    #[test]
    fn tvec_and_epc_lose_their_low_bits() {
        for number in [STVEC, VSTVEC, MTVEC] {
            assert_eq!(written(number, 0, u64::MAX), !2);
            assert!(storable(number, !2));
            assert!(storable(number, 1));
            assert!(!storable(number, 2));
        }
        for number in [SEPC, VSEPC, MEPC] {
            assert_eq!(written(number, 0, u64::MAX), !3);
            assert!(!storable(number, 1));
            assert!(!storable(number, 2));
            assert!(storable(number, 4));
        }
    }

    #[test]
    fn an_unknown_mode_in_satp_does_nothing() {
        for number in [SATP, VSATP] {
            for mode in 0..16u64 {
                let value = (mode << 60) | 0x0fff_ffff_ffff_ffff;
                let allowed = matches!(mode, 0 | 8 | 9 | 10);
                assert_eq!(
                    written(number, 5, value),
                    if allowed { value } else { 5 },
                    "mode {mode}"
                );
                assert_eq!(storable(number, value), allowed);
            }
        }
    }

    #[test]
    fn the_levels_of_each_mode() {
        for low in [0, 0x0fff_ffff_ffff_ffff] {
            let levels = [0u64, 8, 9, 10].map(|mode| atp_levels((mode << 60) | low));
            assert_eq!(levels, [None, Some(3), Some(4), Some(5)]);
        }
    }

    #[test]
    fn an_unknown_mode_in_hgatp_keeps_the_old_mode_only() {
        for mode in 0..16u64 {
            let allowed = matches!(mode, 0 | 8 | 9 | 10);
            for old_mode in [0u64, 8, 9, 10] {
                let value = (mode << 60) | 0x0fff_ffff_ffff_ffff;
                let kept = if allowed { mode } else { old_mode };
                assert_eq!(
                    written(HGATP, old_mode << 60, value),
                    (kept << 60) | 0x03ff_ffff_ffff_fffc
                );
            }
            assert_eq!(storable(HGATP, mode << 60), allowed, "mode {mode}");
        }
        for bad in [0, 1, 58, 59, 60, 61, 62] {
            assert!(!storable(HGATP, 1 << bad), "bit {bad}");
        }
        for good in [2, 43, 44, 57, 63] {
            assert!(storable(HGATP, 1 << good), "bit {good}");
        }
    }

    #[test]
    fn plain_registers_hold_64_bits() {
        for number in [
            SSCRATCH, SCAUSE, STVAL, VSSCRATCH, VSCAUSE, VSTVAL, HTVAL, HTINST, MSCRATCH, MCAUSE,
            MTVAL, MTINST, MTVAL2,
        ] {
            assert_eq!(written(number, 0, u64::MAX), u64::MAX);
            assert!(storable(number, u64::MAX));
            assert!(storable(number, 0));
        }
    }

    #[test]
    fn the_lowest_wrong_field_or_bit_is_named() {
        let found = |number, content| match wrong(find(number).unwrap(), content) {
            Some(Wrong::Field(field, holds)) => format!("{} {holds:x}", field.name),
            Some(Wrong::Bit(position)) => format!("bit {position}"),
            Some(Wrong::ClearBit(position)) => format!("no bit {position}"),
            None => "nothing".to_string(),
        };
        for (number, content, expected) in [
            (MSTATUS, 0xa_0000_0000, "nothing"),
            (MSTATUS, 0xa_0000_0004, "bit 2"),
            (MSTATUS, 0x1000, "MPP 2"),
            (MSTATUS, 0x1004, "bit 2"),
            (MSTATUS, 0x3000, "MPP 2"),
            (MSTATUS, 0x9_0000_0000, "UXL 1"),
            (MSTATUS, 0xe_8000_0000, "bit 31"),
            (MSTATUS, 0xe_0000_0000, "SXL 3"),
            (MSTATUS, 0x1a_0000_0000, "bit 36"),
            (VSSTATUS, 0, "UXL 0"),
            (VSSTATUS, 0xa_0000_0000, "bit 35"),
            (VSSTATUS, 0x2_0000_0008, "bit 3"),
            (HSTATUS, 0x3_0000_0000, "VSXL 3"),
            (HSTATUS, 0x8000_0002_0000_0000, "bit 63"),
            (HSTATUS, 0x8000_0000_0000_0001, "bit 0"),
            (SATP, 0xb000_0000_0000_0001, "MODE b"),
            (SATP, 0x9000_0000_0000_0001, "nothing"),
            (VSATP, 0xafff_ffff_ffff_ffff, "nothing"),
            (HGATP, 0xa3ff_ffff_ffff_fffc, "nothing"),
            (HGATP, 0x9000_0000_0000_0002, "bit 1"),
            (VSATP, u64::MAX, "MODE f"),
            (HGATP, 0x1000_0000_0000_0000, "MODE 1"),
            (HGATP, 0x1800_0000_0000_0000, "bit 59"),
            (HGATP, u64::MAX, "bit 0"),
            (STVEC, u64::MAX, "bit 1"),
            (SEPC, 2, "bit 1"),
            (HEDELEG, u64::MAX, "bit 9"),
            (MEDELEG, !0xf0_b7ff, "bit 11"),
            (SSCRATCH, u64::MAX, "nothing"),
            (MIDELEG, 0x666, "nothing"),
            (MIDELEG, 0, "no bit 2"),
            (MIDELEG, 0x404, "no bit 6"),
            (MIDELEG, 0x044, "no bit 10"),
            (MIDELEG, 0x440 | 1, "bit 0"),
            (MIDELEG, 0x440 | 8, "no bit 2"),
            (MIDELEG, 0x1444, "bit 12"),
            (MIE_REGISTER, 0xeee, "nothing"),
            (MIE_REGISTER, 0x1000, "bit 12"),
            (MIP, 0xeee, "nothing"),
            (MIP, 0xeef, "bit 0"),
            (HIDELEG, 0x444, "nothing"),
            (HIDELEG, 0x466, "bit 1"),
        ] {
            assert_eq!(found(number, content), expected, "{number:x} {content:x}");
        }
    }

    /// "mip's bits 3, 7 and 11 come in with the hart, pass check 2": it holds nine bits, and a write can't make each of them.
    #[test]
    fn mip_holds_nine_bits() {
        for position in 0..64 {
            let one_of_nine = [1, 2, 3, 5, 6, 7, 9, 10, 11].contains(&position);
            assert_eq!(storable(MIP, 1 << position), one_of_nine, "bit {position}");
        }
    }

    /// A value could be stored exactly when writing it leaves it: the two rules agree on every single-bit change. (Of mip a write
    /// leaves some bits as they came in.)
    #[test]
    fn what_could_be_stored_is_what_writing_it_leaves() {
        for row in ROWS.iter().filter(|row| row.number != MIP) {
            for old in [0, u64::MAX, 0x1234_5678_9abc_def0] {
                let held = after_write(row, masked(row, 0), old);
                assert_eq!(wrong(row, held), None, "{} {held:x}", row.name);
                for position in 0..64 {
                    let changed = held ^ (1 << position);
                    assert_eq!(
                        wrong(row, changed).is_none(),
                        after_write(row, masked(row, 0), changed) == changed,
                        "{} {changed:x}",
                        row.name
                    );
                }
            }
        }
    }
}
