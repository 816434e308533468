//! Altered copies of the second program's source, one small change each, compiled and compared with the unaltered library:
//! every one must be caught within a full run, and must change an answer of an example where it isn't about the script language
//! or about reasons alone.
//! This takes minutes, so it runs only when asked for:
//!
//! `cargo test --release -p compare --test mutants -- --ignored --nocapture`

use std::ffi::OsString;
use std::path::{Path, PathBuf};
use std::process::Command;

use compare::comparing::{compare, Failure, Options, FULL_RUN};
use compare::mutants::Mutant;
use compare::program::{model, Folder, InProcess, Process};

const MUTANTS: &[Mutant] = &[
    // registers.rs
    Mutant("registers.rs", "const HEDELEG_STORED: u64 = 0xb1ff", "const HEDELEG_STORED: u64 = 0xb3ff"),
    Mutant("registers.rs", "const MEDELEG_STORED: u64 = 0xf0_b7ff", "const MEDELEG_STORED: u64 = 0xf0_bfff"),
    Mutant("registers.rs", "const TVEC_STORED: u64 = !0b10", "const TVEC_STORED: u64 = !0b11"),
    Mutant("registers.rs", "const EPC_STORED: u64 = !0b11", "const EPC_STORED: u64 = !0b1"),
    Mutant("registers.rs", "0xf3ff_ffff_ffff_fffc", "0xf3ff_ffff_ffff_ffff"),
    Mutant("registers.rs", "if mpp(value) == 2 {", "if mpp(value) == 4 {"),
    Mutant("registers.rs", "with_mpp(written, mpp(old))", "with_mpp(written, 0)"),
    Mutant("registers.rs", "allowed: &[0, 1, 3]", "allowed: &[0, 1, 2, 3]"),
    Mutant("registers.rs", "SATP | VSATP | HGATP => &ATP_FIELDS", "SATP | HGATP => &ATP_FIELDS"),
    Mutant("registers.rs", "atp_mode(old))\n", "0)\n"),
    Mutant("registers.rs", "SATP | VSATP => atp_after_write(old, value)", "SATP => atp_after_write(old, value)"),
    Mutant("registers.rs", "field(atp, 0, 44)", "field(atp, 0, 43)"),
    Mutant("registers.rs", "| (1 << HU)\n", "\n"),
    // hart.rs
    Mutant("hart.rs", "self.pc.is_multiple_of(4)", "self.pc.is_multiple_of(2)"),
    Mutant("hart.rs", "if mode != Mode::M && bit(self.mstatus, MPRV)", "if mode != Mode::M && mode != Mode::Hs && bit(self.mstatus, MPRV)"),
    Mutant("hart.rs", "(1, 1) => Some(Mode::Vs),", "(1, 1) | (1, 3) => Some(Mode::Vs),"),
    Mutant("hart.rs", "self.pc.wrapping_add(4)", "self.pc.saturating_add(4)"),
    Mutant("hart.rs", "            _ => Mode::M,\n", "            _ if mpv => Mode::Vs,\n            _ => Mode::M,\n"),
    // trap.rs
    Mutant("trap.rs", "0..=13 | 15 | 20..=23", "0..=15 | 20..=23"),
    Mutant("trap.rs", "8 => mode != Mode::U && mode != Mode::Vu", "8 => mode != Mode::U"),
    Mutant("trap.rs", "10 => mode != Mode::Vs", "10 => !mode.v()"),
    Mutant("trap.rs", "trap.cause == VIRTUAL_INSTRUCTION && !mode.v()", "trap.cause == VIRTUAL_INSTRUCTION && mode == Mode::M"),
    Mutant("trap.rs", "matches!(trap.cause, 8..=11) && trap.value != 0", "matches!(trap.cause, 8..=10) && trap.value != 0"),
    Mutant("trap.rs", "} else if trap.word != 0 {", "} else if false {"),
    Mutant("trap.rs", "2 | 8..=11 | 22 => trap.flag", "22 => None,\n        2 | 8..=11 => trap.flag"),
    Mutant("trap.rs", "(!trap.flag).then_some(BadRequest::FlagClear(cause))", "(mode.v() && !trap.flag).then_some(BadRequest::FlagClear(cause))"),
    Mutant("trap.rs", "(mode.v() && !trap.flag).then_some", "(mode.v() != trap.flag).then_some"),
    Mutant("trap.rs", "if mode == Mode::M || !delegates(hart.medeleg, cause)", "if !delegates(hart.medeleg, cause)"),
    Mutant("trap.rs", "mode.v() && delegates(hart.hedeleg, cause)", "delegates(hart.hedeleg, cause)"),
    Mutant("trap.rs", "tvec & !0b11", "tvec"),
    Mutant("trap.rs", "    if mode.v() {\n        after.hstatus = with_bit(after.hstatus, SPVP", "    if true {\n        after.hstatus = with_bit(after.hstatus, SPVP"),
    Mutant("trap.rs", "with_bit(after.mstatus, MPV, mode.v())", "with_bit(after.mstatus, MPV, trap.flag)"),
    Mutant("trap.rs", "after.mstatus = with_bit(after.mstatus, MPIE, bit(hart.mstatus, MIE));", ""),
    Mutant("trap.rs", "after.hstatus = with_bit(after.hstatus, HSTATUS_GVA, trap.flag);", "after.hstatus = with_bit(after.hstatus, HSTATUS_GVA, mode.v());"),
    Mutant("trap.rs", "    after.htval = trap.second;\n", ""),
    Mutant("trap.rs", "    after.mtinst = trap.word;\n", ""),
    Mutant("trap.rs", "after.vsstatus = with_bit(after.vsstatus, SIE, false);", ""),
    Mutant("trap.rs", "after.pc = entry_point(hart.vstvec, trap.cause);", "after.pc = entry_point(hart.stvec, trap.cause);"),
    // calls.rs
    Mutant("calls.rs", "Mode::U | Mode::Vu => 8,\n        Mode::Hs => 9,", "Mode::U => 8,\n        Mode::Hs | Mode::Vu => 9,"),
    Mutant("calls.rs", "flag: mode.v(),", "flag: false,"),
    Mutant("calls.rs", "value: hart.pc,", "value: 0,"),
    // returns.rs
    Mutant("returns.rs", "if mpp(old) != 3 {", "if mpp(old) == 0 {"),
    Mutant("returns.rs", "    after.mstatus = with_bit(after.mstatus, MPV, false);\n", ""),
    Mutant("returns.rs", "    after.hstatus = with_bit(after.hstatus, SPV, false);\n", ""),
    Mutant("returns.rs", "after.mstatus = with_bit(after.mstatus, MPRV, false);\n    after.in_mode(Mode::below", "after.in_mode(Mode::below"),
    Mutant("returns.rs", "Mode::Vs if bit(hart.hstatus, VTSR)", "Mode::Vs if bit(hart.mstatus, TSR)"),
    Mutant("returns.rs", "Mode::Hs if bit(hart.mstatus, TSR)", "Mode::Hs | Mode::M if bit(hart.mstatus, TSR)"),
    Mutant("returns.rs", "after.pc = hart.vsepc;", "after.pc = hart.sepc;"),
    Mutant("returns.rs", "after.vsstatus = with_bit(after.vsstatus, SPIE, true);", ""),
    // access.rs
    Mutant("access.rs", "if number > LAST_NUMBER {", "if number > LAST_NUMBER + 1 {"),
    Mutant("access.rs", "if row.read_only && writes {", "if row.read_only && writes && !mode.v() {"),
    Mutant("access.rs", "row.number == SATP || row.number == HGATP;", "row.number == SATP;"),
    Mutant("access.rs", "Level::S if row.number == SATP && bit(hart.hstatus, VTVM)", "Level::S if row.number == SATP && bit(hart.mstatus, TVM)"),
    Mutant("access.rs", "Level::S => vs_register_of(row).ok_or(illegal(out_of_reach)),", "Level::S => Ok(row),"),
    Mutant("access.rs", "Action::Set { writes, .. } | Action::Clear { writes, .. } => writes,", "Action::Set { writes, value } | Action::Clear { writes, value } => writes && value != 0,"),
    Mutant("access.rs", "write(&mut after, row, action.combined(old))", "write(&mut after, row, match action { Action::Set { value, .. } if row.number == SATP => value, other => other.combined(old) })"),
    Mutant("access.rs", "outcome: trap::done(after.moved_on()),", "outcome: trap::done(if action.writes() && after_write(row, old, action.combined(old)) == old { *hart } else { after.moved_on() }),"),
    Mutant("access.rs", "Mode::U => Err(illegal(", "Mode::U => Err(virtual_instruction("),
    Mutant("registers.rs", "(home & !written) | ((value << self.down) & written)", "(home & !written) | ((value << self.down) & written & !(1 << 19))"),
    // waits.rs
    Mutant("waits.rs", "    if mode == Mode::M {\n        return None;\n    }\n", ""),
    Mutant("waits.rs", "Mode::Vs if bit(hart.hstatus, VTW)", "Mode::Vs if bit(hart.hstatus, VTVM)"),
    Mutant("waits.rs", "    if bit(hart.mstatus, TW) {", "    if bit(hart.mstatus, TW) && !mode.v() {"),
    Mutant("waits.rs", "Some(virtual_instruction(Forbidden::Bit(Control::Vtvm)))", "Some(illegal(Forbidden::Bit(Control::Vtvm)))"),
    Mutant("waits.rs", "        Mode::Hs if bit(hart.mstatus, TVM) => Some(illegal(Forbidden::Bit(Control::Tvm))),\n        _ => hfence", "        _ => hfence"),
    // image.rs
    Mutant("image.rs", "length > LARGEST", "length >= LARGEST"),
    Mutant("image.rs", "base + length > END_LIMIT", "base + length >= END_LIMIT"),
    Mutant("image.rs", "!length.is_multiple_of(PAGE)", "false"),
    Mutant("image.rs", "first >= base && first", "first + 8 >= base && first"),
    // walk.rs
    Mutant("walk.rs", "!matches!(self.width, 1 | 2 | 4 | 8)", "!matches!(self.width, 1 | 2 | 4 | 8 | 16)"),
    Mutant("walk.rs", "fetch && !self.address.is_multiple_of(4)", "fetch && !self.address.is_multiple_of(2)"),
    Mutant("walk.rs", "bit(hart.mstatus, MPRV) && kind != Kind::Fetch", "bit(hart.mstatus, MPRV)"),
    Mutant("walk.rs", "let copies = 65 - bits;\n    let high = field(address, bits - 1, copies);", "let copies = 64 - bits;\n    let high = field(address, bits, copies);"),
    Mutant("walk.rs", "field(address.0, bits, 64 - bits) == 0", "field(address.0, bits - 2, 66 - bits) == 0"),
    Mutant("walk.rs", "field(address.0, bits, 64 - bits) == 0", "field(address.0, bits, 56u32.saturating_sub(bits)) == 0"),
    Mutant("walk.rs", "let width = if level == top_level(levels) { 11 } else { 9 };", "let width = 9;"),
    Mutant("walk.rs", "bit(entry, PTE_W) && !bit(entry, PTE_R)", "bit(entry, PTE_W) && !bit(entry, PTE_R) && !bit(entry, PTE_X)"),
    Mutant("walk.rs", "field(entry, 54, 10) != 0", "field(entry, 55, 9) != 0"),
    Mutant("walk.rs", "field(entry, 54, 10) != 0", "field(entry, 54, 9) != 0"),
    Mutant("walk.rs", "    if bit(entry, PTE_U) {\n        return Err(Rule::PointerWithU);\n    }\n", ""),
    Mutant("walk.rs", "    if bit(entry, PTE_D) {\n        return Err(Rule::PointerWithD);\n    }\n", ""),
    Mutant("walk.rs", "    if bit(entry, PTE_A) {\n        return Err(Rule::PointerWithA);\n    }\n", ""),
    Mutant("walk.rs", "low_ones(offset_bits(level) - 12)", "low_ones(9)"),
    Mutant("walk.rs", "low_ones(offset_bits(level) - 12)", "0"),
    Mutant("walk.rs", "low_ones(offset_bits(level) - 12)", "low_ones((offset_bits(level) - 12).min(9))"),
    Mutant("walk.rs", "let from_address = low_ones(offset_bits(level));", "let from_address = low_ones(12);"),
    Mutant("walk.rs", "is_store && !bit(entry, PTE_D)", "!bit(entry, PTE_D)"),
    Mutant("walk.rs", "let is_store = purpose == Purpose::Access && self.access.kind == Kind::Store;", "let is_store = self.access.kind == Kind::Store;"),
    Mutant("walk.rs", "Kind::Store if !bit(entry, PTE_W)", "Kind::Store if !bit(entry, PTE_D)"),
    Mutant("walk.rs", "right_of_kind(entry, Kind::Load, false)?", "right_of_kind(entry, Kind::Load, bit(self.hart.mstatus, MXR))?"),
    Mutant("walk.rs", "right_of_kind(entry, Kind::Load, false)?", "right_of_kind(entry, self.access.kind, false)?"),
    Mutant("walk.rs", "self.right_of_access(entry, bit(self.hart.mstatus, MXR))?", "self.right_of_access(entry, self.first_stage_mxr())?"),
    Mutant("walk.rs", "self.right_of_access(entry, bit(self.hart.mstatus, MXR))?", "self.right_of_access(entry, false)?"),
    Mutant("walk.rs", "guest || bit(self.hart.mstatus, MXR)", "if self.mode.v() { guest } else { bit(self.hart.mstatus, MXR) }"),
    Mutant("walk.rs", "let guest = self.mode.v() && bit(self.hart.vsstatus, MXR);", "let guest = bit(self.hart.vsstatus, MXR);"),
    Mutant("walk.rs", "bit(self.hart.vsstatus, SUM)", "bit(self.hart.mstatus, SUM)"),
    Mutant("walk.rs", "            if self.access.kind == Kind::Fetch {\n                return Err(Rule::SupervisorFetch);\n            }\n", ""),
    Mutant("walk.rs", "            if !bit(entry, PTE_U) {\n                return Err(Rule::NotUser);\n            }\n", ""),
    Mutant("walk.rs", "            if !bit(entry, PTE_U) {\n                return Err(Rule::NotUser);\n            }\n", "            if purpose == Purpose::Access && !bit(entry, PTE_U) {\n                return Err(Rule::NotUser);\n            }\n"),
    Mutant("walk.rs", "if !supervisor && !user_page {", "if !supervisor && !user_page && self.access.kind != Kind::Fetch {"),
    Mutant("walk.rs", "Purpose::GuestEntry => 0x3000,", "Purpose::GuestEntry => 0x3020,"),
    Mutant("walk.rs", "let second = guest.0 >> 2;", "let second = (guest.0 & 0xff_ffff_ffff_ffff) >> 2;"),
    Mutant("walk.rs", "flag: self.mode.v(),", "flag: self.hart.v == 1,"),
    Mutant("walk.rs", "self.alignment()?;\n        let machine", "let machine"),
    Mutant("walk.rs", "Mode::U | Mode::Hs => Machine(self.first_stage(self.hart.satp)?)", "Mode::U | Mode::Hs => Machine(self.first_stage(self.hart.vsatp)?)"),
    Mutant("walk.rs", "let Some(levels) = atp_levels(hgatp) else {", "let Some(levels) = (hgatp != 0).then(|| atp_levels(hgatp).unwrap_or(3)) else {"),
    Mutant("walk.rs", "let Some(levels) = atp_levels(atp) else {", "let Some(levels) = (atp != 0).then(|| atp_levels(atp).unwrap_or(3)) else {"),
    Mutant("trap.rs", "Refusal::Image(_) => 1,", "Refusal::Image(_) => 3,"),
    Mutant("walk.rs", "field(entry, 10, 44)", "field(entry, 10, 43)"),
    Mutant("walk.rs", "    if let Some(bad) = image.refusal() {\n        return refused(Refusal::Image(bad));\n    }\n    if let Some(bad) = access.refusal() {\n        return refused(Refusal::Access(bad));\n    }\n", "    if let Some(bad) = access.refusal() {\n        return refused(Refusal::Access(bad));\n    }\n    if let Some(bad) = image.refusal() {\n        return refused(Refusal::Image(bad));\n    }\n"),
    Mutant("walk.rs", "return Err(self.access_fault(why));\n        };", "self.list.push(Read { stage: stage.number(), level, address: place.0, value: 0 });\n            return Err(self.access_fault(why));\n        };"),
    // script.rs
    Mutant("script.rs", "word.len() > 16", "word.len() > 17"),
    Mutant("script.rs", "matches!(byte, b' ' | b'\\t' | b'\\r')", "matches!(byte, b' ' | b'\\t')"),
    Mutant("script.rs", "is_blank(*byte) || *byte == b'#')", "is_blank(*byte))"),
    Mutant("script.rs", "        1 => Ok(true),", "        1 | 2 => Ok(true),"),
    // lines.rs
    Mutant("lines.rs", "self.line.len() + piece.len() > LONGEST_LINE", "self.line.len() + piece.len() >= LONGEST_LINE"),
    Mutant("lines.rs", "self.line.len() + piece.len() > LONGEST_LINE", "self.line.len() + piece.len() > LONGEST_LINE + 1"),
    Mutant("lines.rs", "matches!(byte, b'#' | 0)", "matches!(byte, 0)"),
    // More of each.
    Mutant("registers.rs", "SATP | VSATP | HGATP => &ATP_FIELDS", "SATP | VSATP => &ATP_FIELDS"),
    Mutant("hart.rs", "Some((row, wrong(row, content)?))", "Some((row, wrong(row, if row.number == registers::MTVEC { 0 } else { content })?))"),
    Mutant("hart.rs", "Some((row, wrong(row, content)?))", "Some((row, wrong(row, if row.number == registers::VSEPC { 0 } else { content })?))"),
    Mutant("hart.rs", "Some((row, wrong(row, content)?))", "Some((row, wrong(row, if row.number == registers::HEDELEG { 0 } else { content })?))"),
    Mutant("hart.rs", "Some((row, wrong(row, content)?))", "Some((row, wrong(row, content & !(1 << 63))?))"),
    Mutant("trap.rs", "after.mepc = hart.pc;", "after.mepc = hart.pc.wrapping_add(4);"),
    Mutant("trap.rs", "    after.mtval2 = trap.second;\n", ""),
    Mutant("trap.rs", "after.in_mode(Mode::Vs)", "after"),
    Mutant("trap.rs", "    after.mstatus = with_bit(after.mstatus, SPP, from_supervisor);\n", ""),
    Mutant("trap.rs", "with_bit(after.hstatus, SPV, mode.v())", "with_bit(after.hstatus, SPV, trap.flag)"),
    Mutant("trap.rs", "after.hstatus = with_bit(after.hstatus, SPVP, from_supervisor);", "after.hstatus = with_bit(after.hstatus, SPVP, true);"),
    Mutant("returns.rs", "    after.mstatus = with_bit(after.mstatus, MPIE, true);\n", ""),
    Mutant("returns.rs", "    after.mstatus = with_mpp(after.mstatus, 0);\n", ""),
    Mutant("returns.rs", "after.in_mode(Mode::below_machine(true, bit(hart.vsstatus, SPP)))", "after.in_mode(Mode::below_machine(true, bit(hart.mstatus, SPP)))"),
    Mutant("returns.rs", "Mode::Vu => Some(virtual_instruction(", "Mode::Vu => Some(illegal("),
    Mutant("access.rs", "old & !value", "old & value"),
    Mutant("access.rs", "        Level::Vs | Level::H => Err(virtual_instruction(", "        Level::Vs | Level::H => Err(illegal("),
    Mutant("access.rs", "Level::M => Err(illegal(out_of_reach)),\n        Level::S | Level::Vs", "Level::M => Err(virtual_instruction(out_of_reach)),\n        Level::S | Level::Vs"),
    Mutant("access.rs", "if row.level == Level::M {", "if false {"),
    Mutant("access.rs", "gate(hart, &view)) | row.constant", "gate(hart, &view))"),
    Mutant("walk.rs", "self.second_stage(GuestPhysical(place), Purpose::GuestEntry)", "self.second_stage(GuestPhysical(place), Purpose::Access)"),
    Mutant("walk.rs", "self.second_stage(GuestPhysical(place), Purpose::GuestEntry)", "Ok(Machine(place))"),
    Mutant("walk.rs", "Kind::Store => 6,", "Kind::Store => 7,"),
    Mutant("walk.rs", "let guest = GuestPhysical(self.first_stage(self.hart.vsatp)?);", "let guest = GuestPhysical(self.first_stage(self.hart.satp)?);"),
    Mutant("walk.rs", "let supervisor = self.mode.privilege() == 1;", "let supervisor = self.hart.privilege == 1;"),
    Mutant("walk.rs", "!self.address.is_multiple_of(self.width)", "!self.address.is_multiple_of(self.width.min(4))"),
    Mutant("walk.rs", "let second = guest.0 >> 2;", "let second = (guest.0 & !0xfff) >> 2;"),
    Mutant("walk.rs", "let second = guest.0 >> 2;", "let second = if purpose == Purpose::GuestEntry { self.access.address >> 2 } else { guest.0 >> 2 };"),
    Mutant("walk.rs", "value: self.access.address,", "value: self.access.address & low_ones(56),"),
    Mutant("walk.rs", "field(address, offset_bits(level), 9)", "field(address, offset_bits(level), if level == 2 { 11 } else { 9 })"),
    Mutant("walk.rs", "    levels - 1\n", "    levels - 2\n"),
    Mutant("image.rs", "u64::from_le_bytes(number)", "u64::from_be_bytes(number)"),
    Mutant("script.rs", "Some(byte) if is_blank(*byte) => trimmed(after),", "Some(byte) if is_blank(*byte) => next_word(after).0,"),
    Mutant("lines.rs", "(at_end && !self.line.is_empty())", "false"),
    // Misreadings of docs/MUTATIONS.md, "Misreadings that had changed no example".
    Mutant("walk.rs", "        if self.mode.v() {\n            bit(self.hart.vsstatus, SUM)", "        if self.hart.v == 1 {\n            bit(self.hart.vsstatus, SUM)"),
    Mutant("walk.rs", "        if self.mode.v() {\n            bit(self.hart.vsstatus, SUM)", "        if self.mode.v() {\n            (self.hart.v == 0 && bit(self.hart.mstatus, SUM)) || bit(self.hart.vsstatus, SUM)"),
    Mutant("walk.rs", "        if self.mode.v() {\n            bit(self.hart.vsstatus, SUM)", "        if self.mode.v() || self.hart.privilege == 3 {\n            bit(self.hart.vsstatus, SUM)"),
    Mutant("walk.rs", "let guest = self.mode.v() && bit(self.hart.vsstatus, MXR);", "let guest = self.hart.v == 1 && bit(self.hart.vsstatus, MXR);"),
    Mutant("walk.rs", "guest || bit(self.hart.mstatus, MXR)", "guest || (bit(self.hart.mstatus, MXR) && !(self.mode.v() && self.hart.v == 0))"),
    Mutant("walk.rs", "let guest = self.mode.v() && bit(self.hart.vsstatus, MXR);", "let guest = (self.mode.v() || self.hart.privilege == 3) && bit(self.hart.vsstatus, MXR);"),
    Mutant("access.rs", "write(&mut after, row, action.combined(old));", "if row.number == 0x280 && hart.v == 0 { let value = action.combined(old); after.vsatp = if value >> 60 == 0 || value >> 60 == 8 { value } else { (old & (15 << 60)) | (value & !(15 << 60)) }; } else { write(&mut after, row, action.combined(old)); }"),
    Mutant("access.rs", "write(&mut after, row, action.combined(old));", "if row.number == 0x280 && hart.v == 0 && ![0, 8].contains(&(action.combined(old) >> 60)) { after.vsatp = 0; } else { write(&mut after, row, action.combined(old)); }"),
    Mutant("access.rs", "write(&mut after, row, action.combined(old));", "if row.number == 0x280 && hart.v == 1 { let value = action.combined(old); after.vsatp = if value >> 60 == 0 || value >> 60 == 8 { value } else { (old & (15 << 60)) | (value & !(15 << 60)) }; } else { write(&mut after, row, action.combined(old)); }"),
    Mutant("access.rs", "write(&mut after, row, action.combined(old));", "if row.number == 0x280 && hart.v == 1 && ![0, 8].contains(&(action.combined(old) >> 60)) { after.vsatp = 0; } else { write(&mut after, row, action.combined(old)); }"),
    Mutant("trap.rs", "    after.htval = trap.second;", "    if !matches!(trap.cause, 8..=11) { after.htval = trap.second; }"),
    Mutant("trap.rs", "    after.htinst = trap.word;", "    if !matches!(trap.cause, 8..=11) { after.htinst = trap.word; }"),
    Mutant("trap.rs", "    after.mtval2 = trap.second;", "    if !matches!(trap.cause, 8..=11) { after.mtval2 = trap.second; }"),
    Mutant("trap.rs", "    after.mtinst = trap.word;", "    if !matches!(trap.cause, 8..=11) { after.mtinst = trap.word; }"),
    Mutant("trap.rs", "    after.stval = trap.value;", "    if !matches!(trap.cause, 8..=11) { after.stval = trap.value; }"),
    Mutant("trap.rs", "    after.mtval = trap.value;", "    if !matches!(trap.cause, 8..=11) { after.mtval = trap.value; }"),
    Mutant("waits.rs", "wait_or_fence(hart, word, |_, mode| hfence_trap(\"HFENCE.VVMA\", mode))", "wait_or_fence(hart, word, hfence_gvma_trap)"),
    Mutant("walk.rs", "let width = if level == top_level(levels) { 11 }", "let width = if level == top_level(levels) || level == 0 { 11 }"),
    Mutant("walk.rs", "self.fault(cause, second, purpose.word(), why)", "self.fault(cause, second, if matches!(why.rule, Rule::HighBits(_)) { 0 } else { purpose.word() }, why)"),
    Mutant("walk.rs", "self.fault(cause, second, purpose.word(), why)", "self.fault(if purpose == Purpose::GuestEntry && matches!(why.rule, Rule::HighBits(_)) { 21 } else { cause }, second, purpose.word(), why)"),
    Mutant("trap.rs", "matches!(trap.cause, 8..=11) && trap.value != 0", "matches!(trap.cause, 2 | 8..=11) && trap.value != 0"),
    Mutant("trap.rs", "matches!(trap.cause, 8..=11) && trap.value != 0", "matches!(trap.cause, 22 | 8..=11) && trap.value != 0"),
    Mutant("walk.rs", "self.right_of_access(entry, bit(self.hart.mstatus, MXR))?", "if !(self.access.kind == Kind::Fetch && bit(entry, PTE_R)) { self.right_of_access(entry, bit(self.hart.mstatus, MXR))? }"),
    Mutant("walk.rs", "        let mut table = root_table(atp);", "        let mut table = root_table(atp) & if self.mode.v() && self.hart.hgatp >> 60 == 8 { low_ones(41) } else { !0 };"),
    Mutant("walk.rs", "                    level = next;\n                    table = below;\n                }\n                Ok(Entry::Leaf { ppn }) => return Ok(leaf_result(ppn, address, level)),", "                    level = next;\n                    table = below & if self.mode.v() && self.hart.hgatp >> 60 == 8 { low_ones(41) } else { !0 };\n                }\n                Ok(Entry::Leaf { ppn }) => return Ok(leaf_result(ppn, address, level)),"),
    Mutant("walk.rs", "return Ok(leaf_result(ppn, address, level)),", "return Ok(leaf_result(ppn, address, level) & if self.mode.v() && self.hart.hgatp >> 60 == 8 { low_ones(41) } else { !0 }),"),
    Mutant("walk.rs", "if !second_stage_takes(guest, bits) {", "if purpose == Purpose::Access && !second_stage_takes(guest, bits) {"),
    Mutant("walk.rs", "if !second_stage_takes(guest, bits) {", "if self.hart.vsatp >> 60 == 0 && !second_stage_takes(guest, bits) {"),
    Mutant("walk.rs", "accessed_and_dirty(entry, is_store)?;", "if purpose == Purpose::Access { accessed_and_dirty(entry, is_store)?; }"),
    Mutant("walk.rs", "accessed_and_dirty(entry, is_store)?;", "if purpose != Purpose::Access { accessed_and_dirty(entry, is_store)?; } else if is_store && !bit(entry, PTE_D) { return Err(Rule::NotDirty); }"),
    Mutant("walk.rs", "return Ok(leaf_result(ppn, address, level)),", "return Ok(leaf_result(ppn, address, level.min(1))),"),
    Mutant("walk.rs", "leaf_result(ppn, guest.0, level)", "leaf_result(ppn, guest.0, level.min(1))"),
    Mutant("walk.rs", "leaf_result(ppn, guest.0, level)", "leaf_result(ppn, guest.0, if level == 1 { 0 } else { level })"),
];

/// Changes to what change request 2026-01 asks for.
const INTERRUPTS: &[Mutant] = &[
    // interrupts.rs
    Mutant("interrupts.rs", "= [11, 3, 7, 9, 1, 5, 10, 2, 6]", "= [3, 11, 7, 9, 1, 5, 10, 2, 6]"),
    Mutant("interrupts.rs", "= [11, 3, 7, 9, 1, 5, 10, 2, 6]", "= [11, 7, 3, 9, 1, 5, 10, 2, 6]"),
    Mutant("interrupts.rs", "= [11, 3, 7, 9, 1, 5, 10, 2, 6]", "= [11, 3, 7, 1, 9, 5, 10, 2, 6]"),
    Mutant("interrupts.rs", "= [11, 3, 7, 9, 1, 5, 10, 2, 6]", "= [11, 3, 7, 9, 5, 1, 10, 2, 6]"),
    Mutant("interrupts.rs", "= [11, 3, 7, 9, 1, 5, 10, 2, 6]", "= [11, 3, 7, 9, 1, 5, 2, 10, 6]"),
    Mutant("interrupts.rs", "= [11, 3, 7, 9, 1, 5, 10, 2, 6]", "= [11, 3, 7, 9, 1, 5, 10, 6, 2]"),
    Mutant("interrupts.rs", "= [11, 3, 7, 9, 1, 5, 10, 2, 6]", "= [11, 3, 7, 10, 2, 6, 9, 1, 5]"),
    Mutant("interrupts.rs", "= [11, 3, 7, 9, 1, 5, 10, 2, 6]", "= [9, 1, 5, 11, 3, 7, 10, 2, 6]"),
    Mutant("interrupts.rs", "in_order.min_by_key(|interrupt| interrupt.level)", "{ let mut in_order = in_order; in_order.next() }"),
    Mutant("interrupts.rs", "in_order.min_by_key(|interrupt| interrupt.level)", "in_order.min_by_key(|interrupt| std::cmp::Reverse(interrupt.level))"),
    Mutant("interrupts.rs", "in_order.min_by_key(|interrupt| interrupt.level)", "in_order.min_by_key(|interrupt| match interrupt.level { Target::M => 0, Target::Vs => 1, Target::Hs => 2 })"),
    Mutant("interrupts.rs", "in_order.min_by_key(|interrupt| interrupt.level)", "in_order.min_by_key(|interrupt| interrupt.level == Target::Vs)"),
    Mutant("interrupts.rs", "(Target::M, Mode::U | Mode::Hs | Mode::Vu | Mode::Vs) => Rule::Always(mode),", "(Target::M, Mode::U | Mode::Hs | Mode::Vu | Mode::Vs) => Rule::Enable(bit(hart.mstatus, MIE)),"),
    Mutant("interrupts.rs", "(Target::M, Mode::U | Mode::Hs | Mode::Vu | Mode::Vs) => Rule::Always(mode),", "(Target::M, Mode::Vu) => Rule::Never(mode),\n        (Target::M, Mode::U | Mode::Hs | Mode::Vu | Mode::Vs) => Rule::Always(mode),"),
    Mutant("interrupts.rs", "(Target::Hs, Mode::U | Mode::Vu | Mode::Vs) => Rule::Always(mode),", "(Target::Hs, Mode::Vs) => Rule::Enable(bit(hart.mstatus, SIE)),\n        (Target::Hs, Mode::U | Mode::Vu | Mode::Vs) => Rule::Always(mode),"),
    Mutant("interrupts.rs", "(Target::Hs, Mode::U | Mode::Vu | Mode::Vs) => Rule::Always(mode),", "(Target::Hs, Mode::U) => Rule::Enable(bit(hart.mstatus, SIE)),\n        (Target::Hs, Mode::U | Mode::Vu | Mode::Vs) => Rule::Always(mode),"),
    Mutant("interrupts.rs", "(Target::Hs, Mode::U | Mode::Vu | Mode::Vs) => Rule::Always(mode),", "(Target::Hs, Mode::Vs) => Rule::Enable(bit(hart.vsstatus, SIE)),\n        (Target::Hs, Mode::U | Mode::Vu | Mode::Vs) => Rule::Always(mode),"),
    Mutant("interrupts.rs", "(Target::Hs, Mode::M) => Rule::Never(mode),", "(Target::Hs, Mode::M) => Rule::Enable(bit(hart.mstatus, MIE)),"),
    Mutant("interrupts.rs", "(Target::Hs, Mode::M) => Rule::Never(mode),", "(Target::Hs, Mode::M) => Rule::Enable(bit(hart.mstatus, SIE)),"),
    Mutant("interrupts.rs", "(Target::Vs, Mode::Vu) => Rule::Always(mode),", "(Target::Vs, Mode::Vu) => Rule::Enable(bit(hart.vsstatus, SIE)),"),
    Mutant("interrupts.rs", "(Target::Vs, Mode::U | Mode::Hs | Mode::M) => Rule::Never(mode),", "(Target::Vs, Mode::U) => Rule::Always(mode),\n        (Target::Vs, Mode::U | Mode::Hs | Mode::M) => Rule::Never(mode),"),
    Mutant("interrupts.rs", "(Target::Vs, Mode::U | Mode::Hs | Mode::M) => Rule::Never(mode),", "(Target::Vs, Mode::Hs) => Rule::Enable(bit(hart.vsstatus, SIE)),\n        (Target::Vs, Mode::U | Mode::Hs | Mode::M) => Rule::Never(mode),"),
    Mutant("interrupts.rs", "(Target::Vs, Mode::U | Mode::Hs | Mode::M) => Rule::Never(mode),", "(Target::Vs, Mode::M) => Rule::Enable(bit(hart.mstatus, MIE)),\n        (Target::Vs, Mode::U | Mode::Hs | Mode::M) => Rule::Never(mode),"),
    Mutant("interrupts.rs", "(Target::Vs, Mode::Vs) => Rule::Enable(bit(hart.vsstatus, SIE)),", "(Target::Vs, Mode::Vs) => Rule::Enable(bit(hart.mstatus, SIE)),"),
    Mutant("interrupts.rs", "(Target::Hs, Mode::Hs) => Rule::Enable(bit(hart.mstatus, SIE)),", "(Target::Hs, Mode::Hs) => Rule::Enable(bit(hart.vsstatus, SIE)),"),
    Mutant("interrupts.rs", "(Target::M, Mode::M) => Rule::Enable(bit(hart.mstatus, MIE)),", "(Target::M, Mode::M) => Rule::Enable(bit(hart.mstatus, SIE)),"),
    Mutant("interrupts.rs", "(Target::Vs, 10) => 9,", "(Target::Vs, 10) => 10,"),
    Mutant("interrupts.rs", "(Target::Vs, 10) => 9,", "(_, 10) => 9,"),
    Mutant("interrupts.rs", "(Target::Vs, 2) => 1,", "(Target::Vs, 2) => 2,"),
    Mutant("interrupts.rs", "(Target::Vs, 6) => 5,", "(Target::Vs, 6) => 6,"),
    Mutant("interrupts.rs", "INTERRUPT_BIT | u64::from(number)", "u64::from(number)"),
    Mutant("interrupts.rs", "bit(hart.mip & hart.mie, *number)", "bit(hart.mip, *number)"),
    Mutant("interrupts.rs", "bit(hart.mip & hart.mie, *number)", "bit(hart.mip | hart.mie, *number)"),
    Mutant("interrupts.rs", "if !bit(hart.mideleg, number) {", "if !bit(hart.mideleg, number) && number != 5 {"),
    Mutant("interrupts.rs", "} else if !bit(hart.hideleg, number) {", "} else if !bit(hart.hideleg, number) || number == 6 {"),
    Mutant("interrupts.rs", "let after = deliver_to(due.level, hart, mode, &trap);", "let mut after = deliver_to(due.level, hart, mode, &trap);\n    after.mip &= !(1 << due.number);"),
    Mutant("interrupts.rs", "let after = deliver_to(due.level, hart, mode, &trap);", "let mut after = deliver_to(due.level, hart, mode, &trap);\n    after.mip &= !(0x226 & (1 << due.number));"),
    Mutant("interrupts.rs", "let after = deliver_to(due.level, hart, mode, &trap);", "let after = deliver_to(due.level, &hart.moved_on(), mode, &trap);"),
    Mutant("interrupts.rs", "(*hart, Ending::Done)", "(hart.moved_on(), Ending::Done)"),
    Mutant("interrupts.rs", "let trap = Trap::plain(written_cause(due));", "let trap = Trap { flag: mode.v(), ..Trap::plain(written_cause(due)) };"),
    Mutant("interrupts.rs", "let trap = Trap::plain(written_cause(due));", "let trap = Trap { value: hart.pc, ..Trap::plain(written_cause(due)) };"),
    Mutant("interrupts.rs", "let after = deliver_to(due.level, hart, mode, &trap);", "let mut after = deliver_to(due.level, hart, mode, &trap);\n    (after.htval, after.htinst) = (hart.htval, hart.htinst);"),
    Mutant("interrupts.rs", "let after = deliver_to(due.level, hart, mode, &trap);", "let mut after = deliver_to(due.level, hart, mode, &trap);\n    (after.mtval2, after.mtinst) = (hart.mtval2, hart.mtinst);"),
    Mutant("interrupts.rs", "let after = deliver_to(due.level, hart, mode, &trap);", "let mut after = deliver_to(due.level, hart, mode, &trap);\n    if due.level == Target::Vs { after.vstval = hart.vstval; }"),
    Mutant("interrupts.rs", "let after = deliver_to(due.level, hart, mode, &trap);", "let mut after = deliver_to(due.level, hart, mode, &trap);\n    if mode == Mode::M { after.mstatus &= !(1 << 17); }"),
    Mutant("interrupts.rs", "let after = deliver_to(due.level, hart, mode, &trap);", "let mut after = deliver_to(due.level, hart, mode, &trap);\n    if (due.level, mode) == (Target::Hs, Mode::Hs) { after.hstatus |= 1 << 8; }"),
    Mutant("interrupts.rs", "let after = deliver_to(due.level, hart, mode, &trap);", "let mut after = deliver_to(due.level, hart, mode, &trap);\n    if due.level == Target::Hs { after.stval = hart.stval; }"),
    Mutant("interrupts.rs", "let after = deliver_to(due.level, hart, mode, &trap);", "let mut after = deliver_to(due.level, hart, mode, &trap);\n    if due.level == Target::Vs { after.hstatus &= !(1 << 6); }"),
    Mutant("interrupts.rs", "let after = deliver_to(due.level, hart, mode, &trap);", "let mut after = deliver_to(due.level, hart, mode, &trap);\n    if due.level == Target::Vs { after.mstatus &= !(1 << 1); }"),
    Mutant("interrupts.rs", "INTERRUPT_BIT | u64::from(number)", "INTERRUPT_BIT | u64::from(if due.level == Target::Hs { number & !8 | 1 } else { number })"),
    // trap.rs
    Mutant("trap.rs", "if vectored && interrupt {", "if vectored {"),
    Mutant("trap.rs", "if vectored && interrupt {", "if interrupt {"),
    Mutant("trap.rs", "if vectored && interrupt {", "if vectored && interrupt && false {"),
    Mutant("trap.rs", "base.wrapping_add((cause & !INTERRUPT_BIT).wrapping_mul(4))", "base.saturating_add((cause & !INTERRUPT_BIT).wrapping_mul(4))"),
    Mutant("trap.rs", "base.wrapping_add((cause & !INTERRUPT_BIT).wrapping_mul(4))", "base | (cause & !INTERRUPT_BIT).wrapping_mul(4)"),
    Mutant("trap.rs", "base.wrapping_add((cause & !INTERRUPT_BIT).wrapping_mul(4))", "tvec.wrapping_add((cause & !INTERRUPT_BIT).wrapping_mul(4))"),
    Mutant("trap.rs", "entry_point(hart.vstvec, trap.cause)", "entry_point(hart.vstvec, trap.cause + (trap.cause >> 63))"),
    Mutant("trap.rs", "if vectored && interrupt {", "if vectored && interrupt && cause & 15 != 11 {"),
    Mutant("trap.rs", "entry_point(hart.stvec, trap.cause)", "entry_point(hart.stvec, trap.cause & !(1 << 1))"),
    // registers.rs
    Mutant("registers.rs", "const VS_INTERRUPTS: u64 = (1 << 2) | (1 << 6) | (1 << 10);", "const VS_INTERRUPTS: u64 = (1 << 2) | (1 << 6) | (1 << 10) | (1 << 12);"),
    Mutant("registers.rs", "const INTERRUPTS: u64 = SUPERVISOR_INTERRUPTS | VS_INTERRUPTS | MACHINE_INTERRUPTS;", "const INTERRUPTS: u64 = SUPERVISOR_INTERRUPTS | VS_INTERRUPTS | MACHINE_INTERRUPTS | (1 << 12);"),
    Mutant("registers.rs", "        SUPERVISOR_INTERRUPTS,\n        VS_INTERRUPTS,\n", "        SUPERVISOR_INTERRUPTS | VS_INTERRUPTS,\n        0,\n"),
    Mutant("registers.rs", "        SUPERVISOR_INTERRUPTS,\n        VS_INTERRUPTS,\n", "        SUPERVISOR_INTERRUPTS | (1 << 10),\n        (1 << 2) | (1 << 6),\n"),
    Mutant("registers.rs", "        SUPERVISOR_INTERRUPTS,\n        VS_INTERRUPTS,\n", "        SUPERVISOR_INTERRUPTS | (1 << 7),\n        VS_INTERRUPTS,\n"),
    Mutant("registers.rs", "        SUPERVISOR_INTERRUPTS,\n        VS_INTERRUPTS,\n", "        SUPERVISOR_INTERRUPTS & !(1 << 9),\n        VS_INTERRUPTS,\n"),
    Mutant("registers.rs", "row(HIDELEG, \"hideleg\", Level::H, VS_INTERRUPTS, 0)", "row(HIDELEG, \"hideleg\", Level::H, VS_INTERRUPTS | SUPERVISOR_INTERRUPTS, 0)"),
    Mutant("registers.rs", "row(HIDELEG, \"hideleg\", Level::H, VS_INTERRUPTS, 0)", "row(HIDELEG, \"hideleg\", Level::M, VS_INTERRUPTS, 0)"),
    Mutant("registers.rs", "row(MIP, \"mip\", Level::M, INTERRUPTS, 0)", "row(MIP, \"mip\", Level::M, INTERRUPTS & !MACHINE_INTERRUPTS, 0)"),
    Mutant("registers.rs", "row(MIE_REGISTER, \"mie\", Level::M, INTERRUPTS, 0)", "row(MIE_REGISTER, \"mie\", Level::M, INTERRUPTS & !VS_INTERRUPTS, 0)"),
    Mutant("registers.rs", "row(HGEIE, \"hgeie\", Level::H, 0, 0),", "Row { read_only: true, ..row(HGEIE, \"hgeie\", Level::H, 0, 0) },"),
    Mutant("registers.rs", "    written: SUPERVISOR_SOFTWARE,\n", "    written: SUPERVISOR_SOFTWARE | (1 << 5),\n"),
    Mutant("registers.rs", "    written: SUPERVISOR_SOFTWARE,\n", "    written: SUPERVISOR_SOFTWARE | (1 << 9),\n"),
    Mutant("registers.rs", "    written: SUPERVISOR_SOFTWARE,\n", "    written: 0,\n"),
    Mutant("registers.rs", "    written: SUPERVISOR_SOFTWARE,\n", "    written: SUPERVISOR_SOFTWARE,\n    gate: None,\n"),
    Mutant("registers.rs", "    shown: SUPERVISOR_INTERRUPTS,\n", "    shown: SUPERVISOR_INTERRUPTS | VS_INTERRUPTS,\n"),
    Mutant("registers.rs", "    gate: Some(MIDELEG),\n", "    gate: None,\n"),
    Mutant("registers.rs", "    gate: Some(MIDELEG),\n", "    gate: Some(HIDELEG),\n"),
    Mutant("registers.rs", "    written: VS_SOFTWARE,\n", "    written: VS_INTERRUPTS,\n"),
    Mutant("registers.rs", "    written: VS_SOFTWARE,\n", "    written: 0,\n"),
    Mutant("registers.rs", "    home: MIP,\n    ..HIE_VIEW\n", "    home: MIP,\n    written: (1 << 2) | (1 << 10),\n    ..HIE_VIEW\n"),
    Mutant("registers.rs", "    home: MIP,\n    ..HIE_VIEW\n", "    home: MIP,\n    gate: Some(HIDELEG),\n    ..HIE_VIEW\n"),
    Mutant("registers.rs", "    shown: VS_INTERRUPTS,\n    written: VS_INTERRUPTS,\n    gate: None,\n", "    shown: VS_INTERRUPTS,\n    written: VS_INTERRUPTS,\n    gate: Some(HIDELEG),\n"),
    Mutant("registers.rs", "    gate: Some(HIDELEG),\n    down: 1,\n    ..HIE_VIEW\n", "    gate: None,\n    down: 1,\n    ..HIE_VIEW\n"),
    Mutant("registers.rs", "    gate: Some(HIDELEG),\n    down: 1,\n    ..HIE_VIEW\n", "    gate: Some(HIDELEG),\n    down: 0,\n    ..HIE_VIEW\n"),
    Mutant("registers.rs", "    gate: Some(HIDELEG),\n    down: 1,\n    ..HIE_VIEW\n", "    written: VS_SOFTWARE,\n    gate: Some(HIDELEG),\n    down: 1,\n    ..HIE_VIEW\n"),
    Mutant("registers.rs", "    gate: Some(HIDELEG),\n    down: 1,\n    ..HIP_VIEW\n", "    gate: None,\n    down: 1,\n    ..HIP_VIEW\n"),
    Mutant("registers.rs", "    gate: Some(HIDELEG),\n    down: 1,\n    ..HIP_VIEW\n", "    gate: Some(HIDELEG),\n    down: 1,\n    ..HVIP_VIEW\n"),
    Mutant("registers.rs", "    gate: Some(HIDELEG),\n    down: 1,\n    ..HIP_VIEW\n", "    gate: Some(HIDELEG),\n    down: 0,\n    ..HIP_VIEW\n"),
    Mutant("registers.rs", "(home & self.shown & gate) >> self.down", "(home & self.shown) >> self.down"),
    Mutant("registers.rs", "let written = self.written & gate;", "let written = self.written;"),
    Mutant("registers.rs", "((value << self.down) & written)", "((value << self.down) & self.written)"),
    Mutant("registers.rs", "let written = SUPERVISOR_INTERRUPTS | VS_SOFTWARE;", "let written = SUPERVISOR_INTERRUPTS | VS_SOFTWARE | (1 << 11);"),
    Mutant("registers.rs", "let written = SUPERVISOR_INTERRUPTS | VS_SOFTWARE;", "let written = SUPERVISOR_INTERRUPTS | VS_SOFTWARE | (1 << 3);"),
    Mutant("registers.rs", "let written = SUPERVISOR_INTERRUPTS | VS_SOFTWARE;", "let written = SUPERVISOR_INTERRUPTS | VS_INTERRUPTS;"),
    Mutant("registers.rs", "let written = SUPERVISOR_INTERRUPTS | VS_SOFTWARE;", "let written = SUPERVISOR_INTERRUPTS;"),
    Mutant("registers.rs", "let written = SUPERVISOR_INTERRUPTS | VS_SOFTWARE;", "let written = SUPERVISOR_SOFTWARE | VS_SOFTWARE;"),
    Mutant("registers.rs", "((content ^ row.constant) & others)", "(content & !row.constant & others)"),
    Mutant("registers.rs", "MIP => mip_after_write(old, value),", ""),
    Mutant("registers.rs", "(home & !written) | ((value", "(home & !self.written) | ((value"),
    Mutant("registers.rs", "(home & !written) | ((value", "(home & !self.shown) | ((value"),
    Mutant("registers.rs", "(home & !written) | ((value", "(home & !(self.shown & gate)) | ((value"),
    Mutant("registers.rs", "(old & !written) | (value & written)", "value & written"),
    // access.rs
    Mutant("access.rs", "find(row.number.wrapping_add(0x100))", "find(if row.number == 0x144 { 0x144 } else { row.number.wrapping_add(0x100) })"),
    Mutant("access.rs", "find(row.number.wrapping_add(0x100))", "find(if row.number == 0x104 { 0x604 } else { row.number.wrapping_add(0x100) })"),
    Mutant("access.rs", "view.write(home(hart, &view), gate(hart, &view), value)", "view.write(home(hart, &view), u64::MAX, value)"),
    Mutant("access.rs", "view.read(home(hart, &view), gate(hart, &view))", "view.read(home(hart, &view), u64::MAX)"),
    // hart.rs
    Mutant("hart.rs", "mideleg: 0x444,", "mideleg: 0x666,"),
    Mutant("hart.rs", "Some((row, wrong(row, content)?))", "Some((row, wrong(row, if row.number == registers::HIDELEG { 0 } else { content })?))"),
    Mutant("hart.rs", "Some((row, wrong(row, content)?))", "Some((row, wrong(row, if row.number == registers::MIDELEG { content | 4 } else { content })?))"),
];

/// Changes that no answer shows, only a reason.
const REASONS: &[Mutant] = &[
    // registers.rs, hart.rs
    Mutant("registers.rs", ".min_by_key(", ".max_by_key("),
    Mutant("registers.rs", "Field::reads_2(\"SXL\", 34)", "Field::reads_2(\"UXL\", 34)"),
    Mutant("registers.rs", "let lowest = ((content ^ row.constant) & others).trailing_zeros();", "let found = (content ^ row.constant) & others;\n    let lowest = if found == 0 { 64 } else { 63 - found.leading_zeros() };"),
    Mutant("registers.rs", "Some(Wrong::Field(field, holds))", "Some(Wrong::Field(field, holds & 3))"),
    Mutant("hart.rs", "let mut registers = self.registers();", "let mut registers = self.registers().rev();"),
    Mutant("hart.rs", "BadHart::Mode(self.v, self.privilege)", "BadHart::Mode(self.privilege, self.v)"),
    Mutant("hart.rs", "        if !self.pc.is_multiple_of(4) {\n            return Err(BadHart::Pc(self.pc));\n        }\n        if mode != Mode::M && bit(self.mstatus, MPRV) {\n            return Err(BadHart::MprvOutsideM);\n        }\n", "        if mode != Mode::M && bit(self.mstatus, MPRV) {\n            return Err(BadHart::MprvOutsideM);\n        }\n        if !self.pc.is_multiple_of(4) {\n            return Err(BadHart::Pc(self.pc));\n        }\n"),
    // image.rs
    Mutant("image.rs", "BadImage::End(base + length)", "BadImage::End(base)"),
    Mutant("image.rs", "        } else if !base.is_multiple_of(PAGE) {\n            Some(BadImage::Base(self.base))\n        } else if !length.is_multiple_of(PAGE) {\n            Some(BadImage::Length(length))\n", "        } else if !length.is_multiple_of(PAGE) {\n            Some(BadImage::Length(length))\n        } else if !base.is_multiple_of(PAGE) {\n            Some(BadImage::Base(self.base))\n"),
    // trap.rs
    Mutant("trap.rs", "Some(BadRequest::Value(cause, trap.value))", "Some(BadRequest::Value(cause, trap.second))"),
    Mutant("trap.rs", "second_value_or_word(trap).or_else(|| flag_wrong(mode, trap))", "flag_wrong(mode, trap).or_else(|| second_value_or_word(trap))"),
    Mutant("trap.rs", "Some(BadRequest::Word(trap.cause))", "Some(BadRequest::SecondValue(trap.cause))"),
    Mutant("trap.rs", "then_some(BadRequest::FlagClearWithV(cause))", "then_some(BadRequest::FlagClear(cause))"),
    Mutant("trap.rs", "reason: Some(Reason::Forbidden(raised.rule)),", "reason: None,"),
    // access.rs, returns.rs, waits.rs
    Mutant("access.rs", "Forbidden::ReadOnly(row)", "Forbidden::Register(row, mode)"),
    Mutant("access.rs", "Err(illegal(Forbidden::Bit(Control::Tvm)))", "Err(illegal(Forbidden::Register(row, Mode::Hs)))"),
    Mutant("access.rs", "Err(virtual_instruction(Forbidden::Bit(Control::Vtvm)))", "Err(virtual_instruction(Forbidden::Bit(Control::Tvm)))"),
    Mutant("access.rs", "let out_of_reach = Forbidden::Register(row, Mode::Vu);", "let out_of_reach = Forbidden::Register(row, Mode::U);"),
    Mutant("returns.rs", "Forbidden::Bit(Control::Tsr)", "Forbidden::Bit(Control::Vtsr)"),
    Mutant("waits.rs", "    if bit(hart.mstatus, TW) {\n        return Some(illegal(Forbidden::Bit(Control::Tw)));\n    }\n", "    if bit(hart.mstatus, TW) {\n        return Some(illegal(if mode == Mode::U { Forbidden::Instruction(\"WFI\", mode) } else { Forbidden::Bit(Control::Tw) }));\n    }\n"),
    Mutant("waits.rs", "hfence_trap(\"HFENCE.GVMA\", mode)", "hfence_trap(\"HFENCE.VVMA\", mode)"),
    // walk.rs
    Mutant("walk.rs", "self.why_of_access(Rule::AccessOutside, machine.0)", "self.why_of_access(Rule::AccessOutside, self.access.address)"),
    Mutant("walk.rs", "let why = self.why_of_entry(Rule::EntryOutside, stage, level, place);", "let why = self.why_of_stage(Rule::EntryOutside, stage, place.0);"),
    Mutant("walk.rs", "let why = self.why_of_stage(Rule::HighBits(bits), stage, guest.0);", "let why = self.why_of_stage(Rule::HighBits(bits), stage, self.access.address);"),
    Mutant("walk.rs", "Stage::Second(guest, _) => Some(guest),", "Stage::Second(guest, _) => Some(GuestPhysical(guest.0 & !7)),"),
    Mutant("walk.rs", "Stage::Second(_, Purpose::Access) => Part::HgatpForAccess,", "Stage::Second(_, Purpose::Access) => Part::HgatpForEntry,"),
    Mutant("walk.rs", "Stage::First if self.mode.v() => Part::Vsatp,", "Stage::First if self.hart.v == 1 => Part::Vsatp,"),
    Mutant("walk.rs", "    if bit(entry, PTE_A) {\n        return Err(Rule::PointerWithA);\n    }\n    if bit(entry, PTE_D) {\n        return Err(Rule::PointerWithD);\n    }\n", "    if bit(entry, PTE_D) {\n        return Err(Rule::PointerWithD);\n    }\n    if bit(entry, PTE_A) {\n        return Err(Rule::PointerWithA);\n    }\n"),
    Mutant("walk.rs", "self.first_stage_user(entry)?;\n            self.right_of_access(entry, self.first_stage_mxr())?;", "self.right_of_access(entry, self.first_stage_mxr())?;\n            self.first_stage_user(entry)?;"),
    Mutant("walk.rs", "if field(entry, 54, 10) != 0 {\n        return Err(Rule::ReservedBits);", "if field(entry, 54, 10) != 0 {\n        return Err(Rule::NotValid);"),
    Mutant("walk.rs", "} else if fetch && self.width != 4 {", "} else if fetch && self.width != 4 && self.address.is_multiple_of(4) {"),
    // reasons.rs
    Mutant("reasons.rs", "let page = address & !0xfff;", "let page = address;"),
    Mutant("reasons.rs", "write!(text, \", level {level}\")", "write!(text, \", level {}\", 2 - level)"),
    Mutant("reasons.rs", "Part::Vsatp => \"a load needs R, or X with vsstatus.MXR or mstatus.MXR\",", "Part::Vsatp => \"a load needs R, or X with vsstatus.MXR\","),
    Mutant("reasons.rs", "Rule::SupervisorNeedsSum if self.part == Part::Vsatp", "Rule::SupervisorNeedsSum if self.part == Part::Satp"),
    Mutant("reasons.rs", "10 => \"VS\",", "10 => \"HS\","),
    Mutant("reasons.rs", "Control::Vtw => \"hstatus.VTW\"", "Control::Vtw => \"mstatus.TW\""),
    Mutant("reasons.rs", "format!(\"{} or {last}\", words.join(\", \"))", "format!(\"{}, {last}\", words.join(\", \"))"),
    // script.rs
    Mutant("script.rs", "refused.or(translation.why.map(Reason::Fault))", "translation.why.map(Reason::Fault)"),
    Mutant("script.rs", "Answer::Register(accessed) => accessed.outcome.reason,", "Answer::Register(accessed) => accessed.outcome.reason.filter(|_| false),"),
];

/// Changes to its reasons, which no answer shows.
const INTERRUPT_REASONS: &[Mutant] = &[
    // interrupts.rs
    Mutant("interrupts.rs", "if hart.mip == 0 {", "if hart.mip & hart.mie == 0 {"),
    Mutant("interrupts.rs", "if hart.mip == 0 {", "if hart.mip == 0 && hart.mie != 0 {"),
    Mutant("interrupts.rs", "(None, None) => Why::NoneEnabled,", "(None, None) => Why::NonePending,"),
    Mutant("interrupts.rs", "let waiting = first(enabled);", "let waiting = { let mut enabled = enabled; enabled.next() };"),
    Mutant("interrupts.rs", "let waiting = first(enabled);", "let waiting = enabled.last();"),
    Mutant("interrupts.rs", "let waiting = first(enabled);", "let waiting = enabled.max_by_key(|found| found.level);"),
    // registers.rs
    Mutant("registers.rs", "Some(Wrong::ClearBit(lowest))", "Some(Wrong::Bit(lowest))"),
    // reasons.rs
    Mutant("reasons.rs", "bit {position} is 0; it may hold 1", "bit {position} is 1; it may hold 1"),
    Mutant("reasons.rs", "\"interrupt {:x} goes to {due}\", due.number", "\"interrupt {} goes to {due}\", due.number"),
    Mutant("reasons.rs", "\"interrupt {:x} would go to {waiting}\", waiting.number", "\"interrupt {} would go to {waiting}\", waiting.number"),
    Mutant("reasons.rs", "\"interrupt {:x} goes to {due}\", due.number", "\"interrupt {:x} goes to {due}\", due.number - u32::from(due.level == Target::Vs)"),
    Mutant("reasons.rs", "\"{level}, bit {} of", "\"{level}, bit {:x} of"),
    Mutant("reasons.rs", "Target::Hs => (\"hideleg\", 0),", "Target::Hs => (\"mideleg\", 1),"),
    Mutant("reasons.rs", "Target::M => (\"mideleg\", 0),", "Target::M => (\"hideleg\", 0),"),
    Mutant("reasons.rs", "(LevelRule::Never(mode), Target::Vs) =>", "(LevelRule::Never(mode @ Mode::U), Target::Vs) => write!(text, \"{mode} is below {level}\"),\n            (LevelRule::Never(mode), Target::Vs) =>"),
    Mutant("reasons.rs", "(LevelRule::Never(mode), Target::Vs) =>", "(LevelRule::Never(mode @ Mode::M), Target::Vs) => write!(text, \"{mode} is above {level}\"),\n            (LevelRule::Never(mode), Target::Vs) =>"),
    Mutant("reasons.rs", "Target::Vs => \"vsstatus.SIE\",", "Target::Vs => \"mstatus.SIE\","),
    Mutant("reasons.rs", "Target::M => \"mstatus.MIE\",", "Target::M => \"mstatus.SIE\","),
];

/// Changes to what change request 2026-02 asks for.
const WORDS: &[Mutant] = &[
    // trap.rs
    Mutant("trap.rs", "value: u64::from(word),", "value: 0,"),
    Mutant("trap.rs", "value: u64::from(word),", "value: u64::from(word & 0xffff),"),
    Mutant("trap.rs", "value: u64::from(word),", "value: u64::from(word & 0xffff_0000),"),
    Mutant("trap.rs", "value: u64::from(word),", "value: u64::from(word & !3),"),
    Mutant("trap.rs", "value: u64::from(word),", "value: u64::from(word | 3),"),
    Mutant("trap.rs", "value: u64::from(word),", "value: u64::from(word << 1),"),
    Mutant("trap.rs", "value: u64::from(word),", "value: u64::from(word >> 2),"),
    Mutant("trap.rs", "value: u64::from(word),", "value: u64::from(word.swap_bytes()),"),
    Mutant("trap.rs", "value: u64::from(word),", "value: word as i32 as u64,"),
    Mutant("trap.rs", "value: u64::from(word),", "value: u64::from(word) << 32,"),
    Mutant("trap.rs", "value: u64::from(word),", "value: hart.pc,"),
    Mutant("trap.rs", "value: u64::from(word),", "value: u64::from(word),\n        word: u64::from(word),"),
    Mutant("trap.rs", "value: u64::from(word),", "value: 0,\n        word: u64::from(word),"),
    Mutant("trap.rs", "value: u64::from(word),", "value: u64::from(word),\n        second: u64::from(word),"),
    Mutant("trap.rs", "value: u64::from(word),", "value: u64::from(word),\n        flag: mode.v(),"),
    Mutant("trap.rs", "value: u64::from(word),", "value: if raised.cause == ILLEGAL_INSTRUCTION { u64::from(word) } else { 0 },"),
    Mutant("trap.rs", "value: u64::from(word),", "value: if raised.cause == VIRTUAL_INSTRUCTION { u64::from(word) } else { 0 },"),
    Mutant("trap.rs", "value: u64::from(word),", "value: if mode.v() { 0 } else { u64::from(word) },"),
    Mutant("trap.rs", "value: u64::from(word),", "value: if mode == Mode::M { 0 } else { u64::from(word) },"),
    Mutant("trap.rs", "value: u64::from(word),", "value: if target(hart, mode, raised.cause) == Target::M { u64::from(word) } else { 0 },"),
    Mutant("trap.rs", "value: u64::from(word),", "value: if target(hart, mode, raised.cause) == Target::Vs { 0 } else { u64::from(word) },"),
    Mutant("trap.rs", "value: u64::from(word),", "value: if word & 0x7f == 0x73 { u64::from(word) } else { 0 },"),
    Mutant("trap.rs", "value: u64::from(word),", "value: match raised.rule { Forbidden::Bit(_) => 0, _ => u64::from(word) },"),
    Mutant("trap.rs", "value: u64::from(word),", "value: match raised.rule { Forbidden::Unlisted(_) => 0, _ => u64::from(word) },"),
    // access.rs
    Mutant("access.rs", "forbidden(hart, mode, raised, word)", "forbidden(hart, mode, raised, 0)"),
    Mutant("access.rs", "forbidden(hart, mode, raised, word)", "forbidden(hart, mode, raised, number as u32)"),
    Mutant("access.rs", "forbidden(hart, mode, raised, word)", "forbidden(hart, mode, raised, if action == Action::Read { 0 } else { word })"),
    Mutant("access.rs", "forbidden(hart, mode, raised, word)", "forbidden(hart, mode, raised, if matches!(action, Action::Write(_)) { 0 } else { word })"),
    Mutant("access.rs", "forbidden(hart, mode, raised, word)", "forbidden(hart, mode, raised, if matches!(action, Action::Set { .. }) { 0 } else { word })"),
    Mutant("access.rs", "forbidden(hart, mode, raised, word)", "forbidden(hart, mode, raised, if matches!(action, Action::Clear { .. }) { 0 } else { word })"),
    Mutant("access.rs", "    if number > LAST_NUMBER {", "    if number > LAST_NUMBER || (number != u64::from(word >> 20) && word != 0) {"),
    // returns.rs
    Mutant("returns.rs", "return forbidden(hart, mode, raised, word);", "return forbidden(hart, mode, raised, 0);"),
    Mutant("returns.rs", "return forbidden(hart, mode, raised, word);", "return forbidden(hart, mode, raised, 0x3020_0073);"),
    Mutant("returns.rs", "Some(raised) => forbidden(hart, mode, raised, word),", "Some(raised) => forbidden(hart, mode, raised, 0),"),
    Mutant("returns.rs", "Some(raised) => forbidden(hart, mode, raised, word),", "Some(raised) => forbidden(hart, mode, raised, 0x1020_0073),"),
    // waits.rs
    Mutant("waits.rs", "wait_or_fence(hart, word, wfi_trap)", "wait_or_fence(hart, 0, wfi_trap)"),
    Mutant("waits.rs", "wait_or_fence(hart, word, wfi_trap)", "wait_or_fence(hart, 0x1050_0073, wfi_trap)"),
    Mutant("waits.rs", "wait_or_fence(hart, word, sfence_vma_trap)", "wait_or_fence(hart, 0, sfence_vma_trap)"),
    Mutant("waits.rs", "wait_or_fence(hart, word, |_, mode|", "wait_or_fence(hart, 0, |_, mode|"),
    Mutant("waits.rs", "wait_or_fence(hart, word, hfence_gvma_trap)", "wait_or_fence(hart, 0, hfence_gvma_trap)"),
    Mutant("waits.rs", "None => only_moves_on(hart),", "None => { let mut after = only_moves_on(hart); after.hart.mtval = u64::from(word); after }"),
    // calls.rs
    Mutant("calls.rs", "trapped(hart, mode, Trap::plain(cause))", "trapped(hart, mode, Trap { value: 0x73, ..Trap::plain(cause) })"),
    Mutant("calls.rs", "value: hart.pc,", "value: 0x10_0073,"),
    // script.rs
    Mutant("script.rs", "u32::try_from(number).map_err(over)", "u32::try_from(number).map_err(over).or(Ok(number as u32))"),
    Mutant("script.rs", "let [number, word] = numbers(rest)?;\n            register_line(number, Action::Read, word)?", "let [number, word] = numbers(rest).or_else(|_| numbers(rest).map(|[number]| [number, 0]))?;\n            register_line(number, Action::Read, word)?"),
    Mutant("script.rs", "let [number, value, word] = numbers(rest)?;", "let [number, value, word] = numbers(rest).or_else(|_| numbers(rest).map(|[number, value]| [number, value, 0]))?;"),
    Mutant("script.rs", "let [number, value, word] = numbers(rest)?;", "let [number, word, value] = numbers(rest)?;"),
    Mutant("script.rs", "    let [word] = numbers(rest)?;\n", "    let [word] = numbers(rest).or_else(|_| numbers(rest).map(|[]| [0]))?;\n"),
    Mutant("script.rs", "    let [word] = numbers(rest)?;\n", "    let [word] = numbers(rest).or_else(|_| numbers(rest).map(|[word, _]| [word]))?;\n"),
    Mutant("script.rs", "b\"ecall\" => alone(Line::Ecall, rest)?,", "b\"ecall\" => Line::Ecall,"),
    Mutant("script.rs", "b\"ebreak\" => alone(Line::Ebreak, rest)?,", "b\"ebreak\" => Line::Ebreak,"),
    Mutant("script.rs", "b\"interrupt\" => alone(Line::Interrupt, rest)?,", "b\"interrupt\" => Line::Interrupt,"),
];

/// Changes to what is said about words, which no answer shows.
const WORD_LINES: &[Mutant] = &[
    // word.rs: what a word is
    Mutant("word.rs", "field(word, 0, 7) != SYSTEM", "field(word, 0, 6) != SYSTEM & 0x3f"),
    Mutant("word.rs", "field(word, 0, 7) != SYSTEM", "field(word, 2, 5) != SYSTEM >> 2"),
    Mutant("word.rs", "(0x0000_0073, Decoded::Ecall)", "(0x0000_0073, Decoded::Ebreak)"),
    Mutant("word.rs", "(0x0010_0073, Decoded::Ebreak)", "(0x0010_0073, Decoded::Ecall)"),
    Mutant("word.rs", "(0x0010_0073, Decoded::Ebreak)", "(0x0000_8073, Decoded::Ebreak)"),
    Mutant("word.rs", "(0x3020_0073, Decoded::Bare(Instruction::Mret))", "(0x3020_0073, Decoded::Bare(Instruction::Sret))"),
    Mutant("word.rs", "(0x3020_0073, Decoded::Bare(Instruction::Mret))", "(0x3010_0073, Decoded::Bare(Instruction::Mret))"),
    Mutant("word.rs", "(0x1020_0073, Decoded::Bare(Instruction::Sret))", "(0x1020_0073, Decoded::Bare(Instruction::Mret))"),
    Mutant("word.rs", "(0x1050_0073, Decoded::Bare(Instruction::Wfi))", "(0x1040_0073, Decoded::Bare(Instruction::Wfi))"),
    Mutant("word.rs", "*whole == word)", "*whole == word & !(0x1f << 7))"),
    Mutant("word.rs", "*whole == word)", "*whole == word & !(0x1f << 15))"),
    Mutant("word.rs", "(0x09, Instruction::SfenceVma)", "(0x0b, Instruction::SfenceVma)"),
    Mutant("word.rs", "(0x09, Instruction::SfenceVma)", "(0x09, Instruction::HfenceVvma)"),
    Mutant("word.rs", "(0x11, Instruction::HfenceVvma)", "(0x11, Instruction::HfenceGvma)"),
    Mutant("word.rs", "(0x11, Instruction::HfenceVvma)", "(0x13, Instruction::HfenceVvma)"),
    Mutant("word.rs", "(0x31, Instruction::HfenceGvma)", "(0x31, Instruction::HfenceVvma)"),
    Mutant("word.rs", "(0x31, Instruction::HfenceGvma)", "(0x39, Instruction::HfenceGvma)"),
    Mutant("word.rs", "*function == field(word, 25, 7)", "*function == field(word, 25, 6)"),
    Mutant("word.rs", "if field(word, 7, 8) != 0 {", "if field(word, 12, 3) != 0 {"),
    Mutant("word.rs", "if field(word, 7, 8) != 0 {", "if field(word, 7, 5) != 0 {"),
    Mutant("word.rs", "        address: field(word, 15, 5),\n        space: field(word, 20, 5),", "        address: field(word, 20, 5),\n        space: field(word, 15, 5),"),
    Mutant("word.rs", "space: field(word, 20, 5),", "space: field(word, 20, 4),"),
    Mutant("word.rs", "(1, Operation::Write, false)", "(1, Operation::Write, true)"),
    Mutant("word.rs", "(2, Operation::Set, false),\n    (3, Operation::Clear, false),", "(2, Operation::Clear, false),\n    (3, Operation::Set, false),"),
    Mutant("word.rs", "(2, Operation::Set, false)", "(2, Operation::Write, false)"),
    Mutant("word.rs", "(3, Operation::Clear, false)", "(4, Operation::Clear, false)"),
    Mutant("word.rs", "(5, Operation::Write, true)", "(5, Operation::Write, false)"),
    Mutant("word.rs", "(5, Operation::Write, true)", "(4, Operation::Write, true)"),
    Mutant("word.rs", "(6, Operation::Set, true),\n    (7, Operation::Clear, true),", "(6, Operation::Clear, true),\n    (7, Operation::Set, true),"),
    Mutant("word.rs", "(6, Operation::Set, true)", "(6, Operation::Set, false)"),
    Mutant("word.rs", "(7, Operation::Clear, true)", "(7, Operation::Clear, false)"),
    Mutant("word.rs", "*function == field(word, 12, 3)", "*function == field(word, 12, 2)"),
    Mutant("word.rs", "        source: field(word, 15, 5),\n        destination: field(word, 7, 5),", "        source: field(word, 7, 5),\n        destination: field(word, 15, 5),"),
    Mutant("word.rs", "source: field(word, 15, 5),", "source: field(word, 15, 4),"),
    Mutant("word.rs", "destination: field(word, 7, 5),\n        number", "destination: field(word, 8, 5),\n        number"),
    Mutant("word.rs", "number: field(word, 20, 12),", "number: field(word, 20, 11),"),
    Mutant("word.rs", "number: field(word, 20, 12),", "number: field(word, 20, 12) ^ 1,"),
    // word.rs: whether it fits
    Mutant("word.rs", "=> this == instruction,", "=> true,"),
    Mutant("word.rs", "this.fence == *instruction", "true"),
    Mutant("word.rs", "this.number == *number && this.fits(*action)", "this.fits(*action)"),
    Mutant("word.rs", "this.number == *number && this.fits(*action)", "this.number == *number"),
    Mutant("word.rs", "this.number == *number && this.fits(*action)", "this.number == *number & 0xfff && this.fits(*action)"),
    Mutant("word.rs", "self.operation != Operation::Write && self.source == 0", "self.source == 0"),
    Mutant("word.rs", "self.operation != Operation::Write && self.source == 0", "self.operation == Operation::Set && self.source == 0"),
    Mutant("word.rs", "self.operation != Operation::Write && self.source == 0", "self.operation != Operation::Write && self.source == 0 && !self.immediate"),
    Mutant("word.rs", "self.operation != Operation::Write && self.source == 0", "self.operation != Operation::Write && self.source == 0 && self.destination != 0"),
    Mutant("word.rs", "Action::Read => return self.only_reads(),", "Action::Read => return self.only_reads() && self.operation == Operation::Set,"),
    Mutant("word.rs", "Action::Read => return self.only_reads(),", "Action::Read => return self.only_reads() && !self.immediate,"),
    Mutant("word.rs", "Action::Read => return self.only_reads(),", "Action::Read => return self.operation != Operation::Write,"),
    Mutant("word.rs", "if self.operation != operation {", "if (self.operation == Operation::Write) != (operation == Operation::Write) {"),
    Mutant("word.rs", "} else if action.writes() {", "} else if true {"),
    Mutant("word.rs", "!self.only_reads() && self.can_give(value)", "!self.only_reads()"),
    Mutant("word.rs", "!self.only_reads() && self.can_give(value)", "self.can_give(value)"),
    Mutant("word.rs", "        } else {\n            self.only_reads()\n        }", "        } else {\n            true\n        }"),
    Mutant("word.rs", "        } else {\n            self.only_reads()\n        }", "        } else {\n            self.only_reads() && value == 0\n        }"),
    Mutant("word.rs", "if self.immediate || self.source == 0 {", "if self.immediate {"),
    Mutant("word.rs", "if self.immediate || self.source == 0 {", "if self.source == 0 {"),
    Mutant("word.rs", "value == self.source", "value & 0x1f == self.source"),
    Mutant("word.rs", "value == self.source", "value & 0xffff_ffff == self.source"),
    Mutant("word.rs", "            true\n", "            value != 0\n"),
    Mutant("word.rs", "            true\n", "            value >= 32\n"),
    Mutant("word.rs", "let fits = decoded.fits(line);", "let fits = decoded != Decoded::NoSystem;"),
    // word.rs: in words
    Mutant("word.rs", "text.write_str(\"ECALL\")", "text.write_str(\"EBREAK\")"),
    Mutant("word.rs", "Instruction::Mret => \"MRET\",", "Instruction::Mret => \"SRET\","),
    Mutant("word.rs", "Instruction::Wfi => \"WFI\",", "Instruction::Wfi => \"wfi\","),
    Mutant("word.rs", "Instruction::HfenceVvma => \"HFENCE.VVMA\",", "Instruction::HfenceVvma => \"SFENCE.VMA\","),
    Mutant("word.rs", "Instruction::HfenceGvma => \"HFENCE.GVMA\",", "Instruction::HfenceGvma => \"HFENCE.VVMA\","),
    Mutant("word.rs", "Instruction::HfenceGvma => \"VMID\",", "Instruction::HfenceVvma => \"VMID\","),
    Mutant("word.rs", "Instruction::HfenceGvma => \"VMID\",\n            _ => \"ASID\",", "Instruction::SfenceVma => \"ASID\",\n            _ => \"VMID\","),
    Mutant("word.rs", "match self.address {\n            0 =>", "match self.address {\n            0 | 1 =>"),
    Mutant("word.rs", "match self.space {\n            0 =>", "match self.space {\n            0 | 31 =>"),
    Mutant("word.rs", "\"the address in x{register}, \"", "\"the address in x{register:x}, \""),
    Mutant("word.rs", "\"the {space} in x{register}\"", "\"the {space} in x{register:x}\""),
    Mutant("word.rs", "\"{register} read to x{}\"", "\"{register} read to x{:x}\""),
    Mutant("word.rs", "\", the old value to x{}\"", "\", the old value to x{:x}\""),
    Mutant("word.rs", "\"the bits of {source} set in {register}\"", "\"the bits of {source} cleared in {register}\""),
    Mutant("word.rs", "\"the bits of {source} cleared in {register}\"", "\"the bits of {source} set in {register}\""),
    Mutant("word.rs", "=> \"CSRRW\",", "=> \"CSRRS\","),
    Mutant("word.rs", "=> \"CSRRWI\",", "=> \"CSRRW\","),
    Mutant("word.rs", "=> \"CSRRS\",", "=> \"CSRRW\","),
    Mutant("word.rs", "=> \"CSRRSI\",", "=> \"CSRRS\","),
    Mutant("word.rs", "=> \"CSRRC\",", "=> \"CSRRS\","),
    Mutant("word.rs", "=> \"CSRRCI\",", "=> \"CSRRC\","),
    Mutant("word.rs", "format!(\"{:x}\", self.source)", "format!(\"{}\", self.source)"),
    Mutant("word.rs", "format!(\"x{}\", self.source)", "format!(\"x{:x}\", self.source)"),
    Mutant("word.rs", "if self.immediate {\n            format!(\"{:x}\", self.source)", "if !self.immediate {\n            format!(\"{:x}\", self.source)"),
    Mutant("word.rs", "format!(\"{} ({:x})\", row.name, row.number)", "format!(\"{} ({})\", row.name, row.number)"),
    Mutant("word.rs", "format!(\"{} ({:x})\", row.name, row.number)", "row.name.to_string()"),
    Mutant("word.rs", "format!(\"register {:x}\", self.number)", "format!(\"register {}\", self.number)"),
    Mutant("word.rs", "\"{:x} {relation} {}\"", "\"{:08x} {relation} {}\""),
    Mutant("word.rs", "\"does not fit: it is\"", "\"is\""),
    // script.rs
    Mutant("script.rs", "if let Some(word) = Explanation::of(line) {", "if let Some(word) = Explanation::of(line).filter(|_| answer.reason().is_some()) {"),
    Mutant("script.rs", "if let Some(word) = Explanation::of(line) {", "if let Some(word) = Explanation::of(line).filter(|_| answer.reason().is_none()) {"),
    Mutant("script.rs", "if let Some(word) = Explanation::of(line) {", "if let Some(word) = Explanation::of(line).filter(|_| !matches!(answer.reason(), Some(Reason::Refused(_)))) {"),
    Mutant("script.rs", "    if let Some(word) = Explanation::of(line) {\n        writeln!(output, \"# word: {word}\")?;\n    }\n    if let Some(reason) = answer.reason() {\n        writeln!(output, \"# why: {reason}\")?;\n    }\n", "    if let Some(reason) = answer.reason() {\n        writeln!(output, \"# why: {reason}\")?;\n    }\n    if let Some(word) = Explanation::of(line) {\n        writeln!(output, \"# word: {word}\")?;\n    }\n"),
];

/// Changes to what change request 2026-03 asks for.
const GUEST: &[Mutant] = &[
    // hypervisor.rs: refusals and causes 2 and 22
    Mutant("hypervisor.rs", "matches!(self.width, 1 | 8)", "matches!(self.width, 1)"),
    Mutant("hypervisor.rs", "matches!(self.width, 1 | 8)", "matches!(self.width, 8)"),
    Mutant("hypervisor.rs", "self.access().refusal().or(of_hlvx)", "of_hlvx"),
    Mutant("hypervisor.rs", "let of_hlvx = hlvx && ", "let of_hlvx = "),
    Mutant("hypervisor.rs", "    if let Some(bad) = image.refusal() {\n        return Err(Refusal::Image(bad));\n    }\n    if let Some(bad) = access.refusal() {\n        return Err(Refusal::Access(bad));\n    }\n", "    if let Some(bad) = access.refusal() {\n        return Err(Refusal::Access(bad));\n    }\n    if let Some(bad) = image.refusal() {\n        return Err(Refusal::Image(bad));\n    }\n"),
    Mutant("hypervisor.rs", "    if let Some(bad) = image.refusal() {\n        return Err(Refusal::Image(bad));\n    }\n", "    if let (Some(bad), true) = (image.refusal(), mode == Mode::M) {\n        return Err(Refusal::Image(bad));\n    }\n"),
    Mutant("hypervisor.rs", "    let mode = hart.check().map_err(Refusal::Hart)?;\n    if let Some(bad) = image.refusal() {\n        return Err(Refusal::Image(bad));\n    }\n", "    if let Some(bad) = image.refusal() {\n        return Err(Refusal::Image(bad));\n    }\n    let mode = hart.check().map_err(Refusal::Hart)?;\n"),
    Mutant("hypervisor.rs", "    if let Some(bad) = access.refusal() {\n        return Err(Refusal::Access(bad));\n    }\n", "    if let (Some(bad), false) = (access.refusal(), mode.v()) {\n        return Err(Refusal::Access(bad));\n    }\n"),
    Mutant("hypervisor.rs", "        Mode::Vu | Mode::Vs => {\n", "        Mode::Vs if bit(hart.hstatus, HU) => None,\n        Mode::Vu | Mode::Vs => {\n"),
    Mutant("hypervisor.rs", "Some(virtual_instruction(rule))", "Some(illegal(rule))"),
    Mutant("hypervisor.rs", "Some(virtual_instruction(rule))", "Some(if mode == Mode::Vu { illegal(rule) } else { virtual_instruction(rule) })"),
    Mutant("hypervisor.rs", "Some(illegal(Forbidden::HuClear))", "Some(virtual_instruction(Forbidden::HuClear))"),
    Mutant("hypervisor.rs", "Mode::U if !bit(hart.hstatus, HU)", "Mode::U if bit(hart.hstatus, HU)"),
    Mutant("hypervisor.rs", "Mode::U if !bit(hart.hstatus, HU)", "Mode::U if false"),
    Mutant("hypervisor.rs", "Mode::U if !bit(hart.hstatus, HU)", "Mode::U"),
    Mutant("hypervisor.rs", "Mode::U if !bit(hart.hstatus, HU)", "Mode::U | Mode::Hs if !bit(hart.hstatus, HU)"),
    Mutant("hypervisor.rs", "Mode::U if !bit(hart.hstatus, HU)", "Mode::U | Mode::M if !bit(hart.hstatus, HU)"),
    Mutant("hypervisor.rs", "Mode::U if !bit(hart.hstatus, HU)", "Mode::U if !bit(hart.hstatus, SPVP)"),
    Mutant("hypervisor.rs", "Mode::U if !bit(hart.hstatus, HU)", "Mode::U if !bit(hart.hstatus, HU) && operation != Operation::LoadExecutable"),
    Mutant("hypervisor.rs", "let outcome = forbidden(hart, mode, raised, word);", "let outcome = forbidden(hart, mode, raised, 0);"),
    Mutant("hypervisor.rs", "let outcome = forbidden(hart, mode, raised, word);", "let outcome = forbidden(hart, mode, raised, access.address as u32);"),
    Mutant("hypervisor.rs", "let outcome = forbidden(hart, mode, raised, word);", "let outcome = forbidden(hart, mode, raised, word & !0x7f | 0x73);"),
    // hypervisor.rs: the mode and the walk
    Mutant("hypervisor.rs", "Mode::below_machine(true, bit(hart.hstatus, SPVP))", "Mode::below_machine(false, bit(hart.hstatus, SPVP))"),
    Mutant("hypervisor.rs", "Mode::below_machine(true, bit(hart.hstatus, SPVP))", "Mode::below_machine(true, bit(hart.mstatus, 8))"),
    Mutant("hypervisor.rs", "Mode::below_machine(true, bit(hart.hstatus, SPVP))", "Mode::below_machine(true, bit(hart.vsstatus, 8))"),
    Mutant("hypervisor.rs", "Mode::below_machine(true, bit(hart.hstatus, SPVP))", "Mode::below_machine(true, !bit(hart.hstatus, SPVP))"),
    Mutant("hypervisor.rs", "Mode::below_machine(true, bit(hart.hstatus, SPVP))", "Mode::below_machine(true, true)"),
    Mutant("hypervisor.rs", "Mode::below_machine(true, bit(hart.hstatus, SPVP))", "Mode::below_machine(true, false)"),
    Mutant("hypervisor.rs", "Mode::below_machine(true, bit(hart.hstatus, SPVP))", "Mode::below_machine(true, hart.privilege != 0)"),
    Mutant("hypervisor.rs", "Mode::below_machine(true, bit(hart.hstatus, SPVP))", "Mode::below_machine(true, hart.privilege != 0 && bit(hart.hstatus, SPVP))"),
    Mutant("hypervisor.rs", "Mode::below_machine(true, bit(hart.hstatus, SPVP))", "Mode::below_machine(bit(hart.hstatus, 7), bit(hart.hstatus, SPVP))"),
    Mutant("hypervisor.rs", "Mode::below_machine(true, bit(hart.hstatus, SPVP))", "if bit(hart.mstatus, 17) { Mode::from_mpp((hart.mstatus >> 11) & 3, bit(hart.mstatus, 39)) } else { Mode::below_machine(true, bit(hart.hstatus, SPVP)) }"),
    Mutant("hypervisor.rs", "Mode::below_machine(true, bit(hart.hstatus, SPVP))", "if bit(hart.mstatus, 17) && bit(hart.mstatus, 39) { Mode::from_mpp((hart.mstatus >> 11) & 3, true) } else { Mode::below_machine(true, bit(hart.hstatus, SPVP)) }"),
    Mutant("hypervisor.rs", "needs_x: self.operation == Operation::LoadExecutable,", "needs_x: false,"),
    Mutant("hypervisor.rs", "needs_x: self.operation == Operation::LoadExecutable,", "needs_x: self.operation == Operation::LoadExecutable && self.width == 2,"),
    Mutant("hypervisor.rs", "needs_x: self.operation == Operation::LoadExecutable,", "needs_x: self.operation == Operation::LoadExecutable && bit(hart.hstatus, SPVP),"),
    Mutant("hypervisor.rs", "needs_x: self.operation == Operation::LoadExecutable,", "needs_x: self.operation == Operation::LoadExecutable && !bit(hart.mstatus, 19),"),
    Mutant("hypervisor.rs", "needs_x: self.operation == Operation::LoadExecutable,", "needs_x: self.operation == Operation::LoadExecutable && !bit(hart.vsstatus, 19),"),
    Mutant("hypervisor.rs", "Operation::Load { .. } | Operation::LoadExecutable => Kind::Load,", "Operation::Load { .. } => Kind::Load,\n            Operation::LoadExecutable => Kind::Fetch,"),
    Mutant("hypervisor.rs", "Operation::Store { .. } => Kind::Store,", "Operation::Store { .. } => Kind::Load,"),
    // hypervisor.rs: the fault
    Mutant("hypervisor.rs", "..trapped(hart, mode, fault.trap)", "..trapped(hart, Mode::below_machine(true, bit(hart.hstatus, SPVP)), fault.trap)"),
    Mutant("hypervisor.rs", "..trapped(hart, mode, fault.trap)", "..trapped(hart, mode, crate::trap::Trap { flag: mode.v(), ..fault.trap })"),
    Mutant("hypervisor.rs", "..trapped(hart, mode, fault.trap)", "..trapped(hart, mode, crate::trap::Trap { second: 0, ..fault.trap })"),
    Mutant("hypervisor.rs", "..trapped(hart, mode, fault.trap)", "..trapped(hart, mode, crate::trap::Trap { word: 0, ..fault.trap })"),
    Mutant("hypervisor.rs", "..trapped(hart, mode, fault.trap)", "..trapped(hart, mode, crate::trap::Trap { flag: fault.trap.second != 0, ..fault.trap })"),
    Mutant("hypervisor.rs", "..trapped(hart, mode, fault.trap)", "..trapped(&Hart { hstatus: hart.hstatus & !(1 << SPVP), ..*hart }, mode, fault.trap)"),
    Mutant("hypervisor.rs", "..trapped(hart, mode, fault.trap)", "..trapped(&Hart { hstatus: hart.hstatus | (1 << SPVP), ..*hart }, mode, fault.trap)"),
    Mutant("hypervisor.rs", "..trapped(hart, mode, fault.trap)", "..trapped(&hart.moved_on(), mode, fault.trap)"),
    Mutant("hypervisor.rs", "..trapped(hart, mode, fault.trap)", "..Outcome { hart: *hart, ..trapped(hart, mode, fault.trap) }"),
    Mutant("hypervisor.rs", "Err(fault) => without_bytes(access, walked.list, faulted(hart, mode, &fault)),", "Err(fault) => without_bytes(access, List::default(), faulted(hart, mode, &fault)),"),
    Mutant("hypervisor.rs", "Err(fault) => without_bytes(access, walked.list, faulted(hart, mode, &fault)),", "Err(fault) => { if let Operation::Store { value } = access.operation { let _ = image.store(Machine(fault.why.address), access.width, value); } without_bytes(access, walked.list, faulted(hart, mode, &fault)) }"),
    Mutant("hypervisor.rs", "Operation::Load { .. } | Operation::LoadExecutable => Some(0),", "Operation::Load { .. } | Operation::LoadExecutable => Some(u64::MAX),"),
    // hypervisor.rs: what is done
    Mutant("hypervisor.rs", "outcome: only_moves_on(hart),", "outcome: crate::trap::done(*hart),"),
    Mutant("hypervisor.rs", "outcome: only_moves_on(hart),", "outcome: crate::trap::done(Hart { pc: hart.pc.saturating_add(4), ..*hart }),"),
    Mutant("hypervisor.rs", "outcome: only_moves_on(hart),", "outcome: crate::trap::done(Hart { hstatus: hart.hstatus & !(1 << SPVP), ..hart.moved_on() }),"),
    Mutant("hypervisor.rs", "            machine: Some(machine),\n            list: walked.list,", "            machine: Some(machine),\n            list: List::default(),"),
    Mutant("hypervisor.rs", "1 if signed => loaded as i8 as u64,", "1 if signed => loaded,"),
    Mutant("hypervisor.rs", "2 if signed => loaded as i16 as u64,", "2 if signed => loaded,"),
    Mutant("hypervisor.rs", "4 if signed => loaded as i32 as u64,", "4 if signed => loaded,"),
    Mutant("hypervisor.rs", "1 if signed => loaded as i8 as u64,", "1 => loaded as i8 as u64,"),
    Mutant("hypervisor.rs", "2 if signed => loaded as i16 as u64,", "2 => loaded as i16 as u64,"),
    Mutant("hypervisor.rs", "4 if signed => loaded as i32 as u64,", "4 => loaded as i32 as u64,"),
    Mutant("hypervisor.rs", "1 if signed => loaded as i8 as u64,", "1 if signed => loaded as i8 as u16 as u64,"),
    Mutant("hypervisor.rs", "2 if signed => loaded as i16 as u64,", "2 if signed => loaded as i16 as u32 as u64,"),
    Mutant("hypervisor.rs", "        _ => loaded,", "        8 if signed => loaded as i32 as u64,\n        _ => loaded,"),
    Mutant("hypervisor.rs", "Operation::LoadExecutable => (false, image.load(machine, width)),", "Operation::LoadExecutable => (true, image.load(machine, width)),"),
    Mutant("hypervisor.rs", "Operation::Load { signed } => (signed, image.load(machine, width)),", "Operation::Load { signed } => (signed, image.load(machine, 8).or(image.load(machine, width))),"),
    Mutant("hypervisor.rs", "Operation::Load { signed } => (signed, image.load(machine, width)),", "Operation::Load { signed } => (signed, image.load(Machine(machine.0 & !7), width)),"),
    Mutant("hypervisor.rs", "            image.store(machine, width, value);\n", "            image.store(machine, 8, value);\n"),
    Mutant("hypervisor.rs", "            image.store(machine, width, value);\n", "            image.store(machine, 8, value).or_else(|| image.store(machine, width, value));\n"),
    Mutant("hypervisor.rs", "            image.store(machine, width, value);\n", "            image.store(machine, width.min(4), value);\n"),
    Mutant("hypervisor.rs", "            image.store(machine, width, value);\n", "            image.store(machine, width, value & 0xffff_ffff);\n"),
    Mutant("hypervisor.rs", "            image.store(machine, width, value);\n", "            image.store(machine, width, value.swap_bytes() >> (64 - 8 * width));\n"),
    Mutant("hypervisor.rs", "            image.store(machine, width, value);\n", "            image.store(Machine(access.address), width, value);\n"),
    Mutant("hypervisor.rs", "            image.store(machine, width, value);\n", "            image.store(Machine(machine.0 & !7), width, value);\n"),
    Mutant("hypervisor.rs", "            image.store(machine, width, value);\n", "            image.store(machine, (width + 1).min(8), value).or_else(|| image.store(machine, width, value));\n"),
    Mutant("hypervisor.rs", "            image.store(machine, width, value);\n", ""),
    Mutant("hypervisor.rs", "            value: perform(image, access, machine),\n            machine: Some(machine),\n            list: walked.list,", "            value: perform(image, access, machine),\n            machine: Some(machine),\n            list: walk(hart, image, &access.access(), access.manner(hart)).list,"),
    // walk.rs: HLVX
    Mutant("walk.rs", "if !bit(entry, PTE_X) {\n            return Err(Rule::NotExecutableForHlvx);", "if !bit(entry, PTE_X) || !bit(entry, PTE_R) {\n            return Err(Rule::NotExecutableForHlvx);"),
    Mutant("walk.rs", "if !bit(entry, PTE_X) {\n            return Err(Rule::NotExecutableForHlvx);", "if !bit(entry, PTE_X) && !mxr {\n            return Err(Rule::NotExecutableForHlvx);"),
    Mutant("walk.rs", "if !bit(entry, PTE_X) {\n            return Err(Rule::NotExecutableForHlvx);", "if !bit(entry, PTE_X) && !bit(entry, PTE_R) {\n            return Err(Rule::NotExecutableForHlvx);"),
    Mutant("walk.rs", "            self.right_of_access(entry, self.first_stage_mxr())?;", "            right_of_kind(entry, self.access.kind, self.first_stage_mxr())?;"),
    Mutant("walk.rs", "self.right_of_access(entry, bit(self.hart.mstatus, MXR))?", "right_of_kind(entry, self.access.kind, bit(self.hart.mstatus, MXR))?"),
    Mutant("walk.rs", "right_of_kind(entry, Kind::Load, false)?", "if self.needs_x && bit(entry, PTE_X) { } else { right_of_kind(entry, Kind::Load, false)? }"),
    Mutant("walk.rs", "right_of_kind(entry, Kind::Load, false)?", "self.right_of_access(entry, false)?"),
    Mutant("walk.rs", "            if self.access.kind == Kind::Fetch {\n                return Err(Rule::SupervisorFetch);", "            if self.access.kind == Kind::Fetch || self.needs_x {\n                return Err(Rule::SupervisorFetch);"),
    Mutant("walk.rs", "            if !self.sum() {\n", "            if !self.sum() && !self.needs_x {\n"),
    Mutant("walk.rs", "            bit(self.hart.vsstatus, SUM)\n", "            bit(if self.hart.v == 0 { self.hart.mstatus } else { self.hart.vsstatus }, SUM)\n"),
    // image.rs
    Mutant("image.rs", "let stored = number.get(..places.len())?;", "let stored = number.get(8 - places.len()..)?;"),
    Mutant("image.rs", "let number = value.to_le_bytes();", "let number = value.to_be_bytes();"),
    Mutant("image.rs", "(end <= self.bytes.len()).then_some(start..end)", "(end < self.bytes.len()).then_some(start..end)"),
    // script.rs
    Mutant("script.rs", "let reached = reach(&self.hart, &mut self.image, access, *word);", "let reached = reach(&self.hart, &mut self.image.clone(), access, *word);"),
    Mutant("script.rs", "                self.hart = reached.outcome.hart;\n                Ok(Answer::Guest", "                Ok(Answer::Guest"),
    Mutant("script.rs", "(Ending::Trapped(..) | Ending::Done, None) => writeln!(output, \"ok\")?,", "(Ending::Trapped(..) | Ending::Done, None) => writeln!(output, \"value 0\")?,"),
    Mutant("script.rs", "    write_list(output, &reached.list)", "    match reached.outcome.ending { Ending::Trapped(..) => Ok(()), _ => write_list(output, &reached.list) }"),
    Mutant("script.rs", "let signed = flag(signed, \"SIGNED\")?;", "let signed = signed != 0;"),
    Mutant("script.rs", "let [width, signed, address, word] = numbers(rest)?;", "let [width, address, signed, word] = numbers(rest)?;"),
    Mutant("script.rs", "let [width, address, value, word] = numbers(rest)?;", "let [width, value, address, word] = numbers(rest)?;"),
    Mutant("script.rs", "let [width, address, word] = numbers(rest)?;", "let [width, address, word] = numbers(rest).or_else(|_| numbers(rest).map(|[width, _, address, word]| [width, address, word]))?;"),
    Mutant("script.rs", "let [width, address, value, word] = numbers(rest)?;", "let [width, address, value, word] = numbers(rest).or_else(|_| numbers(rest).map(|[width, address, value]| [width, address, value, 0]))?;"),
];

/// Changes to what is said about hypervisor loads and stores, which no answer shows.
const GUEST_LINES: &[Mutant] = &[
    // The reasons.
    Mutant("hypervisor.rs", "BadAccess::HlvxWidth(self.width)", "BadAccess::Width(self.width)"),
    Mutant("hypervisor.rs", "Operation::LoadExecutable => \"HLVX\",", "Operation::LoadExecutable => \"HLV\","),
    Mutant("hypervisor.rs", "Operation::Store { .. } => \"HSV\",", "Operation::Store { .. } => \"HLV\","),
    Mutant("hypervisor.rs", "illegal(Forbidden::HuClear)", "illegal(Forbidden::Instruction(operation.name(), mode))"),
    Mutant("hypervisor.rs", "reason: Some(Reason::Fault(fault.why)),", "reason: None,"),
    Mutant("walk.rs", "return Err(Rule::NotExecutableForHlvx);", "return Err(Rule::NotExecutable);"),
    Mutant("walk.rs", "return Err(Rule::NotExecutableForHlvx);", "return Err(Rule::NotReadable);"),
    Mutant("reasons.rs", "\"HLVX has width 2 or 4, not {width:x}\"", "\"HLVX has width 2 or 4, not {width}0\""),
    Mutant("reasons.rs", "\"hstatus.HU is 0\"", "\"mstatus.HU is 0\""),
    Mutant("reasons.rs", "\"HLVX needs X\"", "\"a fetch needs X\""),
    // What a word is.
    Mutant("word.rs", "(0x30, 0, \"HLV.B\", Loading::Signed, 1)", "(0x30, 0, \"HLV.B\", Loading::Unsigned, 1)"),
    Mutant("word.rs", "(0x30, 1, \"HLV.BU\", Loading::Unsigned, 1)", "(0x30, 3, \"HLV.BU\", Loading::Unsigned, 1)"),
    Mutant("word.rs", "(0x30, 1, \"HLV.BU\", Loading::Unsigned, 1)", "(0x30, 1, \"HLV.BU\", Loading::Signed, 1)"),
    Mutant("word.rs", "(0x32, 0, \"HLV.H\", Loading::Signed, 2)", "(0x32, 0, \"HLV.H\", Loading::Signed, 4)"),
    Mutant("word.rs", "(0x32, 1, \"HLV.HU\", Loading::Unsigned, 2)", "(0x33, 1, \"HLV.HU\", Loading::Unsigned, 2)"),
    Mutant("word.rs", "(0x32, 3, \"HLVX.HU\", Loading::Executable, 2)", "(0x32, 2, \"HLVX.HU\", Loading::Executable, 2)"),
    Mutant("word.rs", "(0x32, 3, \"HLVX.HU\", Loading::Executable, 2)", "(0x32, 3, \"HLVX.HU\", Loading::Unsigned, 2)"),
    Mutant("word.rs", "(0x34, 0, \"HLV.W\", Loading::Signed, 4)", "(0x34, 0, \"HLV.WU\", Loading::Signed, 4)"),
    Mutant("word.rs", "(0x34, 1, \"HLV.WU\", Loading::Unsigned, 4)", "(0x34, 1, \"HLV.WU\", Loading::Unsigned, 8)"),
    Mutant("word.rs", "(0x34, 3, \"HLVX.WU\", Loading::Executable, 4)", "(0x36, 3, \"HLVX.WU\", Loading::Executable, 4)"),
    Mutant("word.rs", "(0x36, 0, \"HLV.D\", Loading::Signed, 8)", "(0x36, 1, \"HLV.D\", Loading::Signed, 8)"),
    Mutant("word.rs", "(0x31, \"HSV.B\", 1)", "(0x31, \"HSV.B\", 2)"),
    Mutant("word.rs", "(0x33, \"HSV.H\", 2)", "(0x32, \"HSV.H\", 2)"),
    Mutant("word.rs", "(0x35, \"HSV.W\", 4)", "(0x35, \"HSV.D\", 4)"),
    Mutant("word.rs", "(0x37, \"HSV.D\", 8)", "(0x36, \"HSV.D\", 8)"),
    Mutant("word.rs", "if field(word, 12, 3) != GUEST {", "if field(word, 14, 1) != 1 {"),
    Mutant("word.rs", "if field(word, 12, 3) != GUEST || field(word, 7, 5) != 0 {", "if field(word, 12, 3) != GUEST {"),
    Mutant("word.rs", "if field(word, 12, 3) != GUEST || field(word, 7, 5) != 0 {", "if field(word, 12, 3) != GUEST || field(word, 7, 4) != 0 {"),
    Mutant("word.rs", "let functions = (field(word, 25, 7), field(word, 20, 5));", "let functions = (field(word, 25, 7), field(word, 20, 4));"),
    Mutant("word.rs", "let functions = (field(word, 25, 7), field(word, 20, 5));", "let functions = (field(word, 25, 6), field(word, 20, 5));"),
    Mutant("word.rs", "store.0 == field(word, 25, 7)", "store.0 == field(word, 25, 6)"),
    Mutant("word.rs", "        width,\n        address: field(word, 15, 5),\n        destination: field(word, 7, 5),", "        width,\n        address: field(word, 7, 5),\n        destination: field(word, 15, 5),"),
    Mutant("word.rs", "        width,\n        address: field(word, 15, 5),\n        source: field(word, 20, 5),", "        width,\n        address: field(word, 20, 5),\n        source: field(word, 15, 5),"),
    // Whether it fits.
    Mutant("word.rs", "register != 0 || value == 0", "true"),
    Mutant("word.rs", "register != 0 || value == 0", "value == 0"),
    Mutant("word.rs", "register != 0 || value == 0", "(register == 0) == (value == 0)"),
    Mutant("word.rs", "GuestOperation::Load { signed: true } => self.loading == Loading::Signed,", "GuestOperation::Load { signed: true } => self.loading != Loading::Executable,"),
    Mutant("word.rs", "self.loading == Loading::Unsigned || self.width == 8", "self.loading == Loading::Unsigned"),
    Mutant("word.rs", "self.loading == Loading::Unsigned || self.width == 8", "self.loading != Loading::Executable"),
    Mutant("word.rs", "self.loading == Loading::Unsigned || self.width == 8", "self.loading != Loading::Signed || self.width == 8"),
    Mutant("word.rs", "GuestOperation::LoadExecutable => self.loading == Loading::Executable,", "GuestOperation::LoadExecutable => self.loading != Loading::Signed,"),
    Mutant("word.rs", "GuestOperation::Store { .. } => false,", "GuestOperation::Store { .. } => true,"),
    Mutant("word.rs", "GuestOperation::Store { value } => can_hold(self.source, value),\n            _ => false,", "GuestOperation::Store { value } => can_hold(self.source, value),\n            _ => true,"),
    Mutant("word.rs", "GuestOperation::Store { value } => can_hold(self.source, value),", "GuestOperation::Store { .. } => true,"),
    Mutant("word.rs", "GuestOperation::Store { value } => can_hold(self.source, value),", "GuestOperation::Store { value } => can_hold(self.address, value),"),
    Mutant("word.rs", "loads_so && self.width == access.width && can_hold(self.address, access.address)", "loads_so && can_hold(self.address, access.address)"),
    Mutant("word.rs", "loads_so && self.width == access.width && can_hold(self.address, access.address)", "loads_so && self.width == access.width"),
    Mutant("word.rs", "loads_so && self.width == access.width && can_hold(self.address, access.address)", "loads_so && self.width == access.width && can_hold(self.destination, access.address)"),
    Mutant("word.rs", "stores_it && self.width == access.width && can_hold(self.address, access.address)", "stores_it && can_hold(self.address, access.address)"),
    Mutant("word.rs", "stores_it && self.width == access.width && can_hold(self.address, access.address)", "stores_it && self.width == access.width"),
    Mutant("word.rs", "stores_it && self.width == access.width && can_hold(self.address, access.address)", "stores_it && self.width <= access.width && can_hold(self.address, access.address)"),
    // In words.
    Mutant("word.rs", "\"{}: x{} loaded from the address in x{}\"", "\"{}: x{:x} loaded from the address in x{}\""),
    Mutant("word.rs", "\"{}: x{} loaded from the address in x{}\"", "\"{}: x{} loaded from the address in x{:x}\""),
    Mutant("word.rs", "self.name, self.destination, self.address", "self.name, self.address, self.destination"),
    Mutant("word.rs", "\"{}: x{} stored at the address in x{}\"", "\"{}: x{:x} stored at the address in x{}\""),
    Mutant("word.rs", "self.name, self.source, self.address", "self.name, self.address, self.source"),
    // script.rs
    Mutant("script.rs", "            | Line::Guest { word, .. } => Some(*word),", "            => Some(*word),"),
    Mutant("script.rs", "Answer::Guest(reached) => reached.outcome.reason,", "Answer::Guest(_) => None,"),
];

/// In the fault of a guest entry.
const ENTRY_FAULTS: &[Mutant] = &[
    Mutant("walk.rs", "let cause = self.access.kind.guest_page_fault();", "let cause = if purpose == Purpose::GuestEntry { 21 } else { self.access.kind.guest_page_fault() };"),
    Mutant("walk.rs", "let cause = self.access.kind.guest_page_fault();", "let cause = if purpose == Purpose::GuestEntry { 23 } else { self.access.kind.guest_page_fault() };"),
    Mutant("walk.rs", "let cause = self.access.kind.guest_page_fault();", "let cause = if purpose == Purpose::GuestEntry && self.access.kind == Kind::Fetch { 21 } else { self.access.kind.guest_page_fault() };"),
    Mutant("walk.rs", "let cause = self.access.kind.guest_page_fault();", "let cause = if purpose == Purpose::GuestEntry && self.hart.v == 0 { 21 } else { self.access.kind.guest_page_fault() };"),
    Mutant("walk.rs", "let cause = self.access.kind.guest_page_fault();", "let cause = if purpose == Purpose::GuestEntry && self.hart.v == 1 && self.access.kind == Kind::Store { 21 } else { self.access.kind.guest_page_fault() };"),
    Mutant("walk.rs", "let cause = self.access.kind.guest_page_fault();", "let cause = if purpose == Purpose::GuestEntry && why.level == Some(0) && self.access.kind == Kind::Store { 21 } else { self.access.kind.guest_page_fault() };"),
    Mutant("walk.rs", "let cause = self.access.kind.guest_page_fault();", "let cause = if purpose == Purpose::GuestEntry && self.needs_x { 20 } else { self.access.kind.guest_page_fault() };"),
    Mutant("walk.rs", "let cause = self.access.kind.guest_page_fault();", "let cause = if purpose == Purpose::GuestEntry { self.access.kind.page_fault() } else { self.access.kind.guest_page_fault() };"),
    Mutant("walk.rs", "let cause = self.access.kind.guest_page_fault();", "let cause = if purpose == Purpose::GuestEntry && self.hart.privilege == 3 { 21 } else { self.access.kind.guest_page_fault() };"),
];

/// In the depths of tables and the MODEs that choose them.
const DEPTHS: &[Mutant] = &[
    // MODE, written and come in.
    Mutant("registers.rs", "const MODES: [u64; 4] = [BARE, SV39, SV48, SV57];", "const MODES: [u64; 3] = [BARE, SV39, SV57];"),
    Mutant("registers.rs", "const MODES: [u64; 4] = [BARE, SV39, SV48, SV57];", "const MODES: [u64; 3] = [BARE, SV39, SV48];"),
    Mutant("registers.rs", "const MODES: [u64; 4] = [BARE, SV39, SV48, SV57];", "const MODES: [u64; 5] = [BARE, SV39, SV48, SV57, 11];"),
    Mutant("registers.rs", "pub const SV48: u64 = 9;", "pub const SV48: u64 = 11;"),
    Mutant("registers.rs", "pub const SV57: u64 = 10;", "pub const SV57: u64 = 11;"),
    Mutant("registers.rs", "allowed: &MODES,", "allowed: &[BARE, SV39],"),
    Mutant("registers.rs", "allowed: &MODES,", "allowed: &[BARE, SV39, SV48],"),
    Mutant("registers.rs", "allowed: &MODES,", "allowed: &[BARE, SV39, SV48, SV57, 11],"),
    Mutant("registers.rs", "    MODES.contains(&atp_mode(atp))", "    matches!(atp_mode(atp), BARE | SV39)"),
    Mutant("registers.rs", "    MODES.contains(&atp_mode(atp))", "    matches!(atp_mode(atp), 0 | 8..=11)"),
    Mutant("registers.rs", "    if mode_is_allowed(value) {\n        value\n", "    if mode_is_allowed(value) && atp_mode(value) != SV57 {\n        value\n"),
    Mutant("registers.rs", "        value\n    } else {\n        old\n    }", "        value\n    } else {\n        with_field(value, MODE_LOW, MODE_WIDTH, atp_mode(old))\n    }"),
    Mutant("registers.rs", "        written\n    } else {\n        with_field(written, MODE_LOW", "        written\n    } else if atp_mode(value) == 11 {\n        old\n    } else {\n        with_field(written, MODE_LOW"),
    Mutant("registers.rs", "    if mode_is_allowed(value) {\n        written\n", "    if mode_is_allowed(value) && atp_mode(value) != SV48 {\n        written\n"),
    Mutant("registers.rs", "    if mode_is_allowed(value) {\n        written\n", "    if mode_is_allowed(value) && atp_mode(value) != SV57 {\n        written\n"),
    // How many levels there are.
    Mutant("registers.rs", "SV48 => Some(4),", "SV48 => Some(3),"),
    Mutant("registers.rs", "SV48 => Some(4),", "SV48 => Some(5),"),
    Mutant("registers.rs", "SV57 => Some(5),", "SV57 => Some(4),"),
    Mutant("registers.rs", "SV57 => Some(5),", ""),
    Mutant("walk.rs", "    levels - 1\n", "    2.min(levels)\n"),
    Mutant("walk.rs", "    levels - 1\n", "    (levels - 1).min(3)\n"),
    Mutant("walk.rs", "let Some(levels) = atp_levels(hgatp) else {", "let Some(levels) = atp_levels(hgatp).map(|own| atp_levels(self.hart.vsatp).unwrap_or(own)) else {"),
    Mutant("walk.rs", "let Some(levels) = atp_levels(hgatp) else {", "let Some(levels) = atp_levels(hgatp).map(|own| if purpose == Purpose::GuestEntry { own.min(4) } else { own }) else {"),
    Mutant("walk.rs", "let Some(levels) = atp_levels(atp) else {", "let Some(levels) = atp_levels(atp).map(|own| if self.mode.v() { atp_levels(self.hart.hgatp).unwrap_or(own) } else { own }) else {"),
    // The list.
    Mutant("walk.rs", "pub const PLACES: usize = 35;", "pub const PLACES: usize = 34;"),
    Mutant("walk.rs", "pub const PLACES: usize = 35;", "pub const PLACES: usize = 15;"),
    // The tests of addresses.
    Mutant("walk.rs", "4 => 48,\n        _ => 57,", "_ => 57,"),
    Mutant("walk.rs", "4 => 48,\n        _ => 57,", "_ => 48,"),
    Mutant("walk.rs", "4 => 48,\n        _ => 57,", "4 => 47,\n        _ => 57,"),
    Mutant("walk.rs", "4 => 48,\n        _ => 57,", "4 => 48,\n        _ => 56,"),
    Mutant("walk.rs", "3 => 39,\n        4 => 48,", "3 => 39,\n        4 => 39,"),
    Mutant("walk.rs", "4 => 50,\n        _ => 59,", "_ => 59,"),
    Mutant("walk.rs", "4 => 50,\n        _ => 59,", "_ => 50,"),
    Mutant("walk.rs", "4 => 50,\n        _ => 59,", "4 => 48,\n        _ => 59,"),
    Mutant("walk.rs", "4 => 50,\n        _ => 59,", "4 => 50,\n        _ => 57,"),
    Mutant("walk.rs", "4 => 50,\n        _ => 59,", "4 => 50,\n        _ => 60,"),
    Mutant("walk.rs", "high == 0 || high == low_ones(copies)", "high == 0 || (bits < 57 && high == low_ones(copies))"),
    // The index, and what a leaf leaves of the address.
    Mutant("walk.rs", "let width = if level == top_level(levels) { 11 }", "let width = if level == 2 { 11 }"),
    Mutant("walk.rs", "let width = if level == top_level(levels) { 11 }", "let width = if level == 2 || level == top_level(levels) { 11 }"),
    Mutant("walk.rs", "let width = if level == top_level(levels) { 11 }", "let width = if level >= 3 || level == top_level(levels) { 11 }"),
    Mutant("walk.rs", "let width = if level == top_level(levels) { 11 }", "let width = if level == top_level(levels) && levels != 4 { 11 }"),
    Mutant("walk.rs", "let width = if level == top_level(levels) { 11 }", "let width = if level == top_level(levels) && levels != 5 { 11 }"),
    Mutant("walk.rs", "        3 => 39,\n        _ => 48,", "        _ => 39,"),
    Mutant("walk.rs", "        2 => 30,\n        3 => 39,\n        _ => 48,", "        2 | 3 => 30,\n        _ => 48,"),
    Mutant("walk.rs", "        3 => 39,\n        _ => 48,", "        3 => 39,\n        _ => 49,"),
    Mutant("walk.rs", "low_ones(offset_bits(level) - 12)", "low_ones((offset_bits(level) - 12).min(18))"),
    Mutant("walk.rs", "low_ones(offset_bits(level) - 12)", "low_ones((offset_bits(level) - 12).min(27))"),
    Mutant("walk.rs", "low_ones(offset_bits(level) - 12)", "low_ones(offset_bits(level.min(3)) - 12 + u32::from(level == 3))"),
    Mutant("walk.rs", "let from_address = low_ones(offset_bits(level));", "let from_address = low_ones(offset_bits(level).min(30));"),
    Mutant("walk.rs", "let from_address = low_ones(offset_bits(level));", "let from_address = low_ones(offset_bits(level).min(39));"),
];

/// In what is said about them.
const DEPTH_REASONS: &[Mutant] = &[
    Mutant(
        "reasons.rs",
        "                    bits - 1\n",
        "                    bits\n",
    ),
    Mutant(
        "reasons.rs",
        "                    bits - 1\n",
        "                    38\n",
    ),
    Mutant(
        "reasons.rs",
        "\"bits 63:{bits} of {address:x} are not all equal to bit {}\"",
        "\"bits 63:{bits:x} of {address:x} are not all equal to bit {}\"",
    ),
    Mutant(
        "reasons.rs",
        "\"bits 63:{bits} of {address:x} are not all 0\"",
        "\"bits 63:41 of {address:x} are not all 0\"",
    ),
    Mutant(
        "reasons.rs",
        "numbers.iter().map(|number| format!(\"{number:x}\"))",
        "numbers.iter().map(u64::to_string)",
    ),
    Mutant(
        "reasons.rs",
        "numbers.iter().map(|number|",
        "numbers.iter().filter(|number| **number != 9).map(|number|",
    ),
    Mutant(
        "walk.rs",
        "let why = self.why_of_stage(Rule::HighBits(bits), Stage::First, address);",
        "let why = self.why_of_stage(Rule::HighBits(39), Stage::First, address);",
    ),
    Mutant(
        "walk.rs",
        "let why = self.why_of_stage(Rule::HighBits(bits), stage, guest.0);",
        "let why = self.why_of_stage(Rule::HighBits(bits - 2), stage, guest.0);",
    ),
];

/// In the lookup of a register by its number.
const NUMBERS: &[Mutant] = &[
    Mutant(
        "registers.rs",
        "ROWS.iter().find(|row| row.number == number)",
        "ROWS[1..].iter().find(|row| row.number == number)",
    ),
    Mutant(
        "registers.rs",
        "ROWS.iter().find(|row| row.number == number)",
        "ROWS[..40].iter().find(|row| row.number == number)",
    ),
    Mutant(
        "registers.rs",
        "ROWS.iter().find(|row| row.number == number)",
        "ROWS.iter().find(|row| row.number == number && number != MSTATUS)",
    ),
    Mutant(
        "registers.rs",
        "ROWS.iter().find(|row| row.number == number)",
        "ROWS.iter().find(|row| row.number >= number)",
    ),
    Mutant(
        "registers.rs",
        "ROWS.iter().find(|row| row.number == number)",
        "ROWS.iter().rev().find(|row| row.number <= number)",
    ),
    Mutant(
        "registers.rs",
        "ROWS.iter().find(|row| row.number == number)",
        "ROWS.iter().find(|row| row.number & 0xff == number & 0xff)",
    ),
    Mutant(
        "registers.rs",
        "ROWS.iter().find(|row| row.number == number)",
        "ROWS.iter().find(|row| row.number | 1 == number | 1)",
    ),
    Mutant(
        "registers.rs",
        "ROWS.iter().find(|row| row.number == number)",
        "ROWS.iter().find(|row| row.number == number.min(HGEIP))",
    ),
    Mutant(
        "registers.rs",
        "ROWS.iter().find(|row| row.number == number)",
        "ROWS.iter().find(|row| row.number == number.max(SSTATUS))",
    ),
    Mutant(
        "registers.rs",
        "ROWS.iter().find(|row| row.number == number)",
        "ROWS.iter().find(|row| row.number == number || (row.number, number) == (HGEIP, 0xe13))",
    ),
    Mutant(
        "registers.rs",
        "ROWS.iter().find(|row| row.number == number)",
        "ROWS.iter().find(|row| row.number == number || (row.number, number) == (SSTATUS, 0xff))",
    ),
    Mutant(
        "access.rs",
        "if number > LAST_NUMBER {",
        "if number >= LAST_NUMBER {",
    ),
    Mutant(
        "access.rs",
        "if number > LAST_NUMBER {",
        "if number & 0xffff > LAST_NUMBER {",
    ),
    Mutant(
        "access.rs",
        "if number > LAST_NUMBER {",
        "if number > LAST_NUMBER && find(number & LAST_NUMBER).is_none() {",
    ),
    Mutant(
        "access.rs",
        "    let mode = match hart.check() {",
        "    let number = number & LAST_NUMBER;\n    let mode = match hart.check() {",
    ),
    Mutant(
        "access.rs",
        "    let mode = match hart.check() {",
        "    let number = number & 0xffff_ffff;\n    let mode = match hart.check() {",
    ),
];

fn source() -> PathBuf {
    Path::new(env!("CARGO_MANIFEST_DIR")).join("../second/src")
}

#[test]
fn every_mutant_still_fits_the_source() {
    let all = [
        MUTANTS,
        INTERRUPTS,
        REASONS,
        INTERRUPT_REASONS,
        WORDS,
        WORD_LINES,
        GUEST,
        GUEST_LINES,
        ENTRY_FAULTS,
        DEPTHS,
        DEPTH_REASONS,
        NUMBERS,
    ];
    for mutant in all.into_iter().flatten() {
        mutant.changed_text(&source());
    }
}

/// Compiles the second program with one change; the program's path.
fn build(mutant: &Mutant, folder: &Path) -> OsString {
    mutant.copy(&source(), folder);
    let library = ["--crate-name=second", "--crate-type=rlib", "lib.rs"];
    mutant.compile(folder, &library);
    let program = [
        "--crate-name=mutant",
        "--extern=second=libsecond.rlib",
        "main.rs",
    ];
    mutant.compile(folder, &program);
    folder.join("mutant").into_os_string()
}

/// Whether a program answers some example otherwise than its `.out` file.
fn changes_an_example(program: &OsString) -> bool {
    let examples = Path::new(env!("CARGO_MANIFEST_DIR")).join("../../examples");
    let mut scripts = std::fs::read_dir(examples).unwrap();
    scripts.any(|entry| {
        let script = entry.unwrap().path();
        script.extension().is_some_and(|end| end == "replay") && {
            let answers = Command::new(program).arg(&script).output().unwrap().stdout;
            answers != std::fs::read(script.with_extension("out")).unwrap()
        }
    })
}

/// Whether a full run with a mutant's program against the library finds a difference.
fn is_caught(mutant: &Mutant, program: &OsString, folder: &Folder, seed: u64) -> bool {
    let first = Process::new(program, folder).unwrap().explaining("--why");
    let second = InProcess {
        name: "the library",
        perform: model,
        folder,
    };
    let events = FULL_RUN;
    match compare(&first, &second, &Options { events, seed }, folder.path()) {
        Err(Failure::Different(difference)) => {
            let lines = difference.script.lines.len();
            let place = difference.place;
            println!("{mutant}: script {place}, {lines} lines");
            true
        }
        Err(Failure::NotRun(name, error)) => panic!("{name}: {error}"),
        Ok(_) => {
            println!("{mutant}: MISSED");
            false
        }
    }
}

/// Builds each of these and compares it; `shows` says whether an example must show it too.
fn check(mutants: &[Mutant], shows: fn(&Mutant) -> bool) {
    let folder = Folder::new().unwrap();
    let mut missed = Vec::new();
    for (mutant, seed) in mutants.iter().zip(1000..) {
        let program = build(mutant, &folder.path().join("mutant"));
        if shows(mutant) && !changes_an_example(&program) {
            missed.push(format!("{mutant} changes no example"));
        }
        if !is_caught(mutant, &program, &folder, seed) {
            missed.push(mutant.to_string());
        }
    }
    assert!(missed.is_empty(), "{missed:#?}");
}

#[test]
#[ignore = "takes minutes"]
fn every_mutant_is_caught() {
    check(MUTANTS, |Mutant(file, ..)| {
        !matches!(*file, "script.rs" | "lines.rs")
    });
}

#[test]
#[ignore = "takes minutes"]
fn every_mutant_of_interrupts_is_caught() {
    check(INTERRUPTS, |_| true);
}

#[test]
#[ignore = "takes minutes"]
fn every_mutant_of_a_reason_is_caught() {
    check(REASONS, |_| false);
}

#[test]
#[ignore = "takes minutes"]
fn every_mutant_of_an_interrupts_reason_is_caught() {
    check(INTERRUPT_REASONS, |_| false);
}

#[test]
#[ignore = "takes minutes"]
fn every_mutant_of_words_is_caught() {
    check(WORDS, |Mutant(file, ..)| *file != "script.rs");
}

#[test]
#[ignore = "takes minutes"]
fn every_mutant_of_what_is_said_about_words_is_caught() {
    check(WORD_LINES, |_| false);
}

#[test]
#[ignore = "takes minutes"]
fn every_mutant_of_hypervisor_loads_and_stores_is_caught() {
    check(GUEST, |Mutant(file, ..)| *file != "script.rs");
}

#[test]
#[ignore = "takes minutes"]
fn every_mutant_of_what_is_said_about_hypervisor_loads_and_stores_is_caught() {
    check(GUEST_LINES, |_| false);
}

#[test]
#[ignore = "takes minutes"]
fn every_mutant_of_the_fault_of_a_guest_entry_is_caught() {
    check(ENTRY_FAULTS, |_| true);
}

#[test]
#[ignore = "takes minutes"]
fn every_mutant_of_depths_is_caught() {
    check(DEPTHS, |_| true);
}

#[test]
#[ignore = "takes minutes"]
fn every_mutant_of_what_is_said_about_depths_is_caught() {
    check(DEPTH_REASONS, |_| false);
}

#[test]
#[ignore = "takes minutes"]
fn every_mutant_of_the_lookup_is_caught() {
    check(NUMBERS, |_| true);
}
