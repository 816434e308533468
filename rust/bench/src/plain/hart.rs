//! A hart's words, what its registers hold, and check 2.

use crate::call::HartWords;

// Where a hart's words stand.
pub const VIRTUALIZATION: usize = 0;
pub const PRIVILEGE: usize = 1;
pub const PC: usize = 2;
pub const STVEC: usize = 3;
pub const SSCRATCH: usize = 4;
pub const SEPC: usize = 5;
pub const SCAUSE: usize = 6;
pub const STVAL: usize = 7;
pub const SATP: usize = 8;
pub const VSSTATUS: usize = 9;
pub const VSTVEC: usize = 10;
pub const VSSCRATCH: usize = 11;
pub const VSEPC: usize = 12;
pub const VSCAUSE: usize = 13;
pub const VSTVAL: usize = 14;
pub const VSATP: usize = 15;
pub const MSTATUS: usize = 16;
pub const MEDELEG: usize = 17;
pub const MIDELEG: usize = 18;
/// mie
pub const INTERRUPT_ENABLE: usize = 19;
pub const MTVEC: usize = 20;
pub const MSCRATCH: usize = 21;
pub const MEPC: usize = 22;
pub const MCAUSE: usize = 23;
pub const MTVAL: usize = 24;
/// mip
pub const INTERRUPT_PENDING: usize = 25;
pub const MTINST: usize = 26;
pub const MTVAL2: usize = 27;
pub const HSTATUS: usize = 28;
pub const HEDELEG: usize = 29;
pub const HIDELEG: usize = 30;
pub const HTVAL: usize = 31;
pub const HTINST: usize = 32;
pub const HGATP: usize = 33;

// Privileges.
pub const USER: u64 = 0;
pub const SUPERVISOR: u64 = 1;
pub const MACHINE: u64 = 3;

// Fields of the status words.
pub const SIE: u64 = 1 << 1;
pub const MIE: u64 = 1 << 3;
pub const SPIE: u64 = 1 << 5;
pub const MPIE: u64 = 1 << 7;
pub const SPP: u64 = 1 << 8;
pub const MPP_LOW: u32 = 11;
pub const MPP: u64 = 3 << MPP_LOW;
pub const MPRV: u64 = 1 << 17;
pub const SUM: u64 = 1 << 18;
pub const MXR: u64 = 1 << 19;
pub const TVM: u64 = 1 << 20;
const TW_TSR: u64 = 3 << 21;
pub const GVA: u64 = 1 << 38;
pub const MPV: u64 = 1 << 39;
pub const UXL: u64 = 3 << 32;
const UXL_64: u64 = 2 << 32;
const SXL_64: u64 = 2 << 34;
pub const HSTATUS_GVA: u64 = 1 << 6;
pub const SPV: u64 = 1 << 7;
pub const SPVP: u64 = 1 << 8;
const HU: u64 = 1 << 9;
pub const VTVM: u64 = 1 << 20;
const VTW_VTSR: u64 = 3 << 21;

// What each register stores, and what its other bits read.
pub const VSSTATUS_STORED: u64 = SIE | SPIE | SPP | SUM | MXR;
const VSSTATUS_FIXED: u64 = UXL_64;
pub const MSTATUS_STORED: u64 =
    VSSTATUS_STORED | MIE | MPIE | MPP | MPRV | TVM | TW_TSR | GVA | MPV;
const MSTATUS_FIXED: u64 = UXL_64 | SXL_64;
pub const HSTATUS_STORED: u64 = HSTATUS_GVA | SPV | SPVP | HU | VTVM | VTW_VTSR;
const HSTATUS_FIXED: u64 = UXL_64;
pub const MEDELEG_STORED: u64 = 0xf0_b7ff;
pub const HEDELEG_STORED: u64 = 0xb1ff;
/// The interrupts of S and of VS, and these with M's: what mideleg and hideleg hand down, and what mie and mip hold.
pub const S_INTERRUPTS: u64 = 0x222;
pub const VS_INTERRUPTS: u64 = 0x444;
pub const INTERRUPTS: u64 = S_INTERRUPTS | VS_INTERRUPTS | 0x888;
pub const TVEC_ZERO: u64 = 0b10;
pub const EPC_ZERO: u64 = 0b11;
pub const HGATP_ZERO: u64 = 3 << 58 | 0b11;

// Fields of satp, vsatp and hgatp.
pub const MODE_LOW: u32 = 60;
pub const BARE: u64 = 0;
pub const SV39: u64 = 8;
pub const SV48: u64 = 9;
const SV57: u64 = 10;
/// A bit for each MODE that they may hold.
const MODES: u64 = 1 << BARE | 1 << SV39 | 1 << SV48 | 1 << SV57;
pub const PPN: u64 = (1 << 44) - 1;

/// Check 2: one word is zero where every rule of a register holds.
#[inline(always)]
pub fn passes(hart: &HartWords) -> bool {
    let (v, privilege, mstatus) = (hart[VIRTUALIZATION], hart[PRIVILEGE], hart[MSTATUS]);
    let no_mode = v > 1 || privilege > 3 - 2 * v || privilege == 2;
    let mprv = mstatus & MPRV != 0 && privilege != MACHINE;
    let wrong = hart[PC] & EPC_ZERO
        | hart[STVEC] & TVEC_ZERO
        | hart[SEPC] & EPC_ZERO
        | (hart[VSSTATUS] & !VSSTATUS_STORED ^ VSSTATUS_FIXED)
        | hart[VSTVEC] & TVEC_ZERO
        | hart[VSEPC] & EPC_ZERO
        | (mstatus & !MSTATUS_STORED ^ MSTATUS_FIXED)
        | mpp_is_2(mstatus)
        | hart[MEDELEG] & !MEDELEG_STORED
        | (hart[MIDELEG] & !S_INTERRUPTS ^ VS_INTERRUPTS)
        | hart[INTERRUPT_ENABLE] & !INTERRUPTS
        | hart[MTVEC] & TVEC_ZERO
        | hart[MEPC] & EPC_ZERO
        | hart[INTERRUPT_PENDING] & !INTERRUPTS
        | (hart[HSTATUS] & !HSTATUS_STORED ^ HSTATUS_FIXED)
        | hart[HEDELEG] & !HEDELEG_STORED
        | hart[HIDELEG] & !VS_INTERRUPTS
        | hart[HGATP] & HGATP_ZERO
        | wrong_mode(hart[SATP])
        | wrong_mode(hart[VSATP])
        | wrong_mode(hart[HGATP]);
    !no_mode & !mprv & (wrong == 0)
}

/// MPP's lower bit where MPP is 2, else 0.
#[inline(always)]
pub fn mpp_is_2(mstatus: u64) -> u64 {
    (mstatus >> 1) & !mstatus & 1 << MPP_LOW
}

/// 1 where satp, vsatp or hgatp has a MODE that it can't hold, else 0.
#[inline(always)]
pub fn wrong_mode(atp: u64) -> u64 {
    !MODES >> (atp >> MODE_LOW) & 1
}
