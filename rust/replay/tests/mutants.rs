//! Altered copies of the explainer, one small change each, compiled and run: the golden explanations of the examples or the
//! comparison with the second program's words and reasons must catch each of them. This takes minutes, so it runs only when asked
//! for, with the programs built:
//!
//! `cargo build --release && cargo test --release -p replay --test mutants -- --ignored --nocapture`

use compare::mutants::Mutant;
use compare::program::Folder;
use std::ffi::OsString;
use std::path::{Path, PathBuf};
use std::process::Command;

#[rustfmt::skip]
const MUTANTS: &[Mutant] = &[
    // where a walk goes
    Mutant("walk.rs", "mode == Mode::M && access.kind != Kind::Fetch &&", "mode == Mode::M &&"),
    Mutant("walk.rs", "if status(\"MPP\") == 3 { 0 } else { status(\"MPV\") }", "status(\"MPV\") & 1"),
    Mutant("walk.rs", "let own = if guest { VSSTATUS } else { MSTATUS };", "let own = MSTATUS; let _ = guest;"),
    Mutant("walk.rs", "_ if guest => table(VSATP, Part::Vsatp),", "_ if guest => table(SATP, Part::Vsatp),"),
    Mutant("walk.rs", "Mode::M => None,\n                _ if guest", "_ if guest"),
    Mutant("walk.rs", "if wide { 0x7ff } else { 0x1ff }", "if wide { 0x3ff } else { 0x1ff }"),
    Mutant("walk.rs", "level == self.top();", "level == 2;"),
    Mutant("walk.rs", "self.levels - 1", "2"),
    Mutant("registers.rs", "12 + 9 * level", "12 + 8 * level"),
    Mutant("registers.rs", "(8..=10).contains(&mode)", "(8..=9).contains(&mode)"),
    Mutant("registers.rs", ".then(|| mode - 5)", ".then(|| if mode == 10 { 4 } else { mode - 5 })"),
    Mutant("walk.rs", "self.table + 8 * self.index", "self.table + 4 * self.index"),
    Mutant("walk.rs", "((1 << 44) - 1)) << 12", "((1 << 42) - 1)) << 12"),
    Mutant("walk.rs", "return Ok(page | address &", "return Ok(page | (address + 1) &"),
    // the access of a hypervisor load or store
    Mutant("walk.rs", "0 => Mode::Vu,\n            _ => Mode::Vs,", "0 => Mode::Vs,\n            _ => Mode::Vu,"),
    Mutant("walk.rs", "match field(hart, HSTATUS, \"SPVP\") {", "match field(hart, HSTATUS, \"SPV\") {"),
    Mutant("walk.rs", "Transfer::LoadX => Right::X,", "Transfer::LoadX => Right::R,"),
    Mutant("walk.rs", "Transfer::Store { .. } => Right::W,", "Transfer::Store { .. } => Right::R,"),
    Mutant("walk.rs", "needs, mode, Some(\"SPVP\"))", "needs, mode, Some(\"MPRV\"))"),
    Mutant("walk.rs", "Ok(address) if faulted =>", "Ok(address) if faulted && address >> 32 != 0 =>"),
    Mutant("script.rs", "Transfer::Load { .. } | Transfer::LoadX => Kind::Load,", "Transfer::Load { .. } => Kind::Load,\n                Transfer::LoadX => Kind::Fetch,"),
    Mutant("script.rs", "Transfer::Load { signed: b == 1 }", "Transfer::Load { signed: b == 0 }"),
    Mutant("script.rs", "guest(Transfer::Store { value: c }, b, d)", "guest(Transfer::Store { value: b }, c, d)"),
    // why it ended
    Mutant("walk.rs", "(address >> bits != 0)", "(address >> sign != 0)"),
    Mutant("walk.rs", "let high = address as i64 >> sign;", "let high = address as i64 >> bits;"),
    Mutant("walk.rs", "(high != 0 && high != -1)", "(high != 0)"),
    Mutant("walk.rs", "are not all equal to bit {sign}", "are not all equal to bit {bits}"),
    Mutant("walk.rs", "offset_bits(self.levels) +", "offset_bits(self.levels.min(4)) +"),
    Mutant("walk.rs", "if self.part.is_first() { 0 } else { 2 }", "if self.levels == 4 { 0 } else { 2 }"),
    Mutant("walk.rs", "let page = address & !0xfff;", "let page = address & !0x1fff;"),
    Mutant("walk.rs", "has(entry, W) && !has(entry, R) {\n            Err(", "has(entry, W) && !has(entry, R) && !has(entry, X) {\n            Err("),
    Mutant("walk.rs", "Err(\"a bit of 63:54 is set\")", "Err(\"a bit of 63:53 is set\")"),
    Mutant("walk.rs", "entry >> 54 != 0", "entry >> 55 != 0"),
    Mutant("walk.rs", "} else if pointer && has(entry, D) {", "} else if has(entry, D) && pointer && level > 0 {"),
    Mutant("walk.rs", "} else if pointer && has(entry, U) {", "} else if pointer && has(entry, 5) {"),
    Mutant("walk.rs", "pointer && level == 0", "pointer && level == 1"),
    Mutant("walk.rs", "target(entry) >> 12 & low_ppn != 0", "target(entry) >> 13 & low_ppn != 0"),
    Mutant("walk.rs", "self.view.needs == Right::W && part != Part::GuestEntry;", "self.view.needs == Right::W;"),
    Mutant("walk.rs", "if !has(entry, A) {\n            return Err(\"A is 0\");", "if !has(entry, A) && has(entry, D) {\n            return Err(\"A is 0\");"),
    Mutant("walk.rs", "if stores && !has(entry, D) {", "if stores && !has(entry, W) {"),
    Mutant("walk.rs", "(_, Right::R) => (reads(mxr),", "(_, Right::R) => (reads(mxr || guest_mxr),"),
    Mutant("walk.rs", "(reads(mxr || guest_mxr), rule)", "(reads(guest_mxr), rule)"),
    Mutant("walk.rs", "(Part::GuestEntry, _) => (reads(false),", "(Part::GuestEntry, _) => (reads(mxr),"),
    Mutant("walk.rs", "(Part::GuestEntry, _) => (reads(false),", "(Part::GuestEntry, Right::R | Right::W) => (reads(false),"),
    Mutant("walk.rs", "(_, Right::X) if self.view.is_fetch() =>", "(_, Right::X) if self.view.mode == Mode::Vu =>"),
    Mutant("walk.rs", "(_, Right::X) => (has(entry, X), \"HLVX needs X\"),", "(_, Right::X) => (has(entry, X) || reads(mxr), \"HLVX needs X\"),"),
    Mutant("walk.rs", "(true, false) => Err(\"user mode needs U\"),", "(true, false) => Err(\"the second stage needs U\"),"),
    Mutant("walk.rs", "(false, true) if !sum && mode.is_guest()", "(false, true) if !sum && !mode.is_guest()"),
    Mutant("walk.rs", "format!(\"second stage for the guest entry at {address:x}\")", "format!(\"second stage for the access at {address:x}\")"),
    // what an entry is
    Mutant("walk.rs", "\"VRWXUGAD\"", "\"VRWXUGDA\""),
    Mutant("walk.rs", "} else if has(entry, W) && !has(entry, R) {\n        \"neither", "} else if false {\n        \"neither"),
    Mutant("walk.rs", "1 => \"2 MiB\",", "1 => \"4 MiB\","),
    Mutant("walk.rs", "3 => \"512 GiB\",\n", ""),
    Mutant("walk.rs", "let guest = if part == Part::Vsatp {", "let guest = if part.is_first() {"),
    // refusals
    Mutant("reason.rs", "length > 0x400_0000", "length > 0x800_0000"),
    Mutant("reason.rs", "!base.is_multiple_of(0x1000)", "!base.is_multiple_of(0x800)"),
    Mutant("reason.rs", "end > 1 << 56", "end > 1 << 57"),
    Mutant("reason.rs", "kind == Kind::Fetch && width != 4", "width != 4 && !address.is_multiple_of(4)"),
    Mutant("reason.rs", "8 => (mode.is_user(), \"U and VU\")", "8 => (mode == Mode::U, \"U and VU\")"),
    Mutant("reason.rs", "9 => (mode == Mode::Hs, \"HS\")", "9 => (mode == Mode::Hs, \"S\")"),
    Mutant("reason.rs", "let guest_page = matches!(cause, 20 | 21 | 23);", "let guest_page = matches!(cause, 20..=23);"),
    Mutant("reason.rs", "call || matches!(cause, 2 | 22)", "call || cause == 2"),
    Mutant("reason.rs", "hart.pc().is_multiple_of(4)", "hart.pc().is_multiple_of(2)"),
    Mutant("reason.rs", "(mode != Mode::M && control", "(mode.is_guest() && control"),
    Mutant("fields.rs", "field(\"MPP\", 12, 11, &[0, 1, 3])", "field(\"MPP\", 12, 11, &[0, 1, 2, 3])"),
    Mutant("fields.rs", "&[0, 8, 9, 10]", "&[0, 8, 9, 10, 11]"),
    Mutant("fields.rs", "map(|value| format!(\"{value:x}\"))", "map(u64::to_string)"),
    Mutant("fields.rs", "field(\"SXL\", 35, 34, &[2])", "field(\"SXL\", 35, 34, &[])"),
    Mutant("fields.rs", "field(\"VSXL\", 33, 32, &[2])", "field(\"UXL\", 33, 32, &[2])"),
    Mutant("fields.rs", "bit(\"HU\", 9),", "bit(\"HU\", 10),"),
    Mutant("registers.rs", "Shape::Causes, 0xf0_b7ff", "Shape::Causes, 0xf0_bfff"),
    Mutant("registers.rs", "Shape::Causes, 0xb1ff", "Shape::Causes, 0xb3ff"),
    Mutant("registers.rs", "!(3 << 58 | 3)", "!(3 << 58)"),
    Mutant("registers.rs", "with_bits(number, name, Shape::Number, !3)", "with_bits(number, name, Shape::Number, !1)"),
    Mutant("registers.rs", "field.low < bits.trailing_zeros()", "field.low > bits.trailing_zeros()"),
    Mutant("fields.rs", "one(\"VSTI\", 6),", "bit(\"VSTI\", 6),"),
    Mutant("fields.rs", "if self.is_bit() {", "if self.low > 63 {"),
    Mutant("registers.rs", "with_fields(MIP, \"mip\", fields::MIP)", "with_fields(MIP, \"mip\", fields::VS_INTERRUPTS)"),
    Mutant("registers.rs", "delegates(HIDELEG, \"hideleg\", fields::VS_INTERRUPTS)", "delegates(HIDELEG, \"hideleg\", fields::INTERRUPTS)"),
    Mutant("reason.rs", "(3, Event::Guest(access, _)) => guest_access_refused(access),", ""),
    Mutant("reason.rs", "executes && !matches!(width, 2 | 4)", "executes && !matches!(width, 1 | 2 | 4)"),
    Mutant("reason.rs", "HLVX has width 2 or 4, not {width:x}", "HLVX has width 1, 2 or 4, not {width:x}"),
    // traps of instructions
    Mutant("reason.rs", "if mode.is_guest() {\n        return", "if mode == Mode::Vs {\n        return"),
    Mutant("reason.rs", "(mode == Mode::U && !control(hart, HSTATUS, \"HU\"))", "(mode == Mode::U && control(hart, HSTATUS, \"SPVP\"))"),
    Mutant("reason.rs", "Event::Guest(access, _) => guest_access_trapped(hart, access),", ""),
    Mutant("reason.rs", "writes && number >> 10 == 3", "number >> 10 == 3"),
    Mutant("reason.rs", "Mode::Hs => !matches!(level(number), Level::M),", "Mode::Hs => matches!(level(number), Level::S),"),
    Mutant("reason.rs", "(Mode::Hs, SATP | HGATP)", "(Mode::Hs, SATP)"),
    Mutant("reason.rs", "(Mode::Vs, SATP) => set(hart, HSTATUS, \"VTVM\")", "(Mode::Vs, SATP) => set(hart, MSTATUS, \"TVM\")"),
    Mutant("reason.rs", "if instruction == Wfi && control(hart, MSTATUS, \"TW\")", "if instruction == Wfi && !mode.is_user() && control(hart, MSTATUS, \"TW\")"),
    Mutant("reason.rs", "HfenceVvma | HfenceGvma => matches!(mode, Mode::M | Mode::Hs),", "HfenceVvma | HfenceGvma => mode == Mode::M,"),
    Mutant("reason.rs", "(Wfi, Mode::Vs) => set(hart, HSTATUS, \"VTW\")", "(Wfi, Mode::Vs) => set(hart, HSTATUS, \"VTSR\")"),
    Mutant("reason.rs", "(SfenceVma | HfenceGvma, Mode::Hs)", "(HfenceVvma | HfenceGvma, Mode::Hs)"),
    // which instruction a word is
    Mutant("word.rs", "(0x73, 0) => Decoded::without_register(word),", "(0x73, 0) => Decoded::OtherSystem,"),
    Mutant("word.rs", "Access::of(word, Change::Write)", "Access::of(word, Change::Set)"),
    Mutant("word.rs", "Access::of(word, Change::Set)", "Access::of(word, Change::Clear)"),
    Mutant("word.rs", "Access::of(word, Change::Clear)", "Access::of(word, Change::Set)"),
    Mutant("word.rs", "(bits(word, 6, 0), bits(word, 13, 12))", "(bits(word, 6, 0), bits(word, 14, 12))"),
    Mutant("word.rs", "(bits(word, 6, 0), bits(word, 13, 12))", "(bits(word, 6, 0) | 1, bits(word, 13, 12))"),
    Mutant("word.rs", "_ => Decoded::NoSystem,", "_ => Decoded::OtherSystem,"),
    Mutant("word.rs", ".map_or(Decoded::OtherSystem, Decoded::Guest)", ".map_or(Decoded::NoSystem, Decoded::Guest)"),
    Mutant("word.rs", "0x0000_0073, ..", "0x0020_0073, .."),
    Mutant("word.rs", "0x0010_0073, ..", "0x0020_0073, .."),
    Mutant("word.rs", "0x3020_0073, ..", "0x2020_0073, .."),
    Mutant("word.rs", "0x1020_0073, ..", "0x2020_0073, .."),
    Mutant("word.rs", "0x1050_0073, ..", "0x1040_0073, .."),
    Mutant("word.rs", "(_, 0x09, 0) =>", "(_, 0x0b, 0) =>"),
    Mutant("word.rs", "(_, 0x11, 0) =>", "(_, 0x13, 0) =>"),
    Mutant("word.rs", "(_, 0x31, 0) =>", "(_, 0x33, 0) =>"),
    Mutant("word.rs", "bits(word, 14, 7))", "bits(word, 14, 12))"),
    Mutant("word.rs", "bits(word, 14, 7))", "bits(word, 11, 7))"),
    Mutant("word.rs", "bits(word, 19, 15), bits(word, 24, 20)", "bits(word, 24, 20), bits(word, 19, 15)"),
    Mutant("word.rs", "let source = bits(word, 19, 15);", "let source = bits(word, 18, 15);"),
    Mutant("word.rs", "match bits(word, 14, 14) {", "match bits(word, 15, 15) {"),
    Mutant("word.rs", "bits(word, 31, 20).into()", "bits(word, 30, 20).into()"),
    Mutant("word.rs", "target: bits(word, 11, 7)", "target: bits(word, 10, 7)"),
    Mutant("word.rs", "bits(word, 27, 26), bits(word, 11, 7)", "bits(word, 26, 25), bits(word, 11, 7)"),
    Mutant("word.rs", "(0, 0, _) => Operation::Load,", "(0, 0 | 2, _) => Operation::Load,"),
    Mutant("word.rs", "(0, 1, 0..=2) => Operation::LoadUnsigned,", "(0, 1, _) => Operation::LoadUnsigned,"),
    Mutant("word.rs", "(0, 3, 1..=2) => Operation::LoadX,", "(0, 3, 0..=2) => Operation::LoadX,"),
    Mutant("word.rs", "(0, 3, 1..=2) => Operation::LoadX,", "(0, 3, 1..=3) => Operation::LoadX,"),
    Mutant("word.rs", "(1, ..) if target == 0 => Operation::Store,", "(1, ..) => Operation::Store,"),
    Mutant("word.rs", "Operation::Store => bits(word, 24, 20),", "Operation::Store => bits(word, 11, 7),"),
    Mutant("word.rs", "(bits(word, 31, 28) == 6 &&", "(bits(word, 30, 28) == 6 &&"),
    Mutant("word.rs", "(bits(word, 31, 28) == 6 &&", "(bits(word, 31, 29) == 3 &&"),
    Mutant("word.rs", "bits(word, 14, 12) == 4).then_some", "bits(word, 13, 12) == 0).then_some"),
    // whether it fits the event
    Mutant("word.rs", "signed || access.width == 8,", "signed,"),
    Mutant("word.rs", "signed || access.width == 8,", "signed || access.width >= 4,"),
    Mutant("word.rs", "(Operation::LoadUnsigned, Transfer::Load { signed }) => !signed,", "(Operation::LoadUnsigned, Transfer::Load { .. }) => true,"),
    Mutant("word.rs", "(Operation::LoadX, Transfer::LoadX) => true,", "(Operation::LoadX | Operation::LoadUnsigned, Transfer::LoadX) => true,"),
    Mutant("word.rs", "Transfer::Store { value }) => holds(self.data, value),", "Transfer::Store { .. }) => true,"),
    Mutant("word.rs", "&& access.width == 1 << self.size &&", "&&"),
    Mutant("word.rs", " && holds(self.address, access.address)", ""),
    Mutant("word.rs", "one == other\n", "one == other || matches!(self, Decoded::Plain(_))\n"),
    Mutant("word.rs", "one == other\n", "one == other || matches!(self, Decoded::Fence(..))\n"),
    Mutant("word.rs", "access.number == *number &&", "access.number == *number & 0xfff &&"),
    Mutant("word.rs", "access.number == *number &&", "access.number & 0xff == *number & 0xff &&"),
    Mutant("word.rs", "(Write, Action::Write(value)) => self.source.gives(value)", "(Write, Action::Write(_)) => true"),
    Mutant("word.rs", "!reads && self.source.gives(value)", "self.source.gives(value)"),
    Mutant("word.rs", "!reads && self.source.gives(value)", "!reads || value == 0"),
    Mutant("word.rs", "(Set, Action::Set(value, true)) |", "(Set | Clear, Action::Set(value, true)) |"),
    Mutant("word.rs", "| (Clear, Action::Clear(value, true))", "| (Set | Clear, Action::Clear(value, true))"),
    Mutant("word.rs", "(Set | Clear, Action::Read)", "(Set, Action::Read)"),
    Mutant("word.rs", "| (Set, Action::Set(_, false))", "| (Set | Clear, Action::Set(_, false))"),
    Mutant("word.rs", "| (Clear, Action::Clear(_, false))", "| (Set | Clear, Action::Clear(_, false))"),
    Mutant("word.rs", "Action::Clear(_, false)) => reads,", "Action::Clear(_, false)) => true,"),
    Mutant("word.rs", "Source::Register(0) | Source::Number(0)", "Source::Register(0)"),
    Mutant("word.rs", "register != 0 || value == 0", "value == 0 || register < 32"),
    Mutant("word.rs", "value == number.into()", "value as u32 == number"),
    // its words
    Mutant("word.rs", "{word:x} {is} {decoded}", "{word:08x} {is} {decoded}"),
    Mutant("word.rs", "(Change::Write, Source::Number(_)) => \"CSRRWI\"", "(Change::Write, Source::Number(_)) => \"CSRRW\""),
    Mutant("word.rs", "(Change::Set, Source::Number(_)) => \"CSRRSI\"", "(Change::Set, Source::Number(_)) => \"CSRRS\""),
    Mutant("word.rs", "(Change::Clear, Source::Register(_)) => \"CSRRC\"", "(Change::Clear, Source::Register(_)) => \"CSRRS\""),
    Mutant("word.rs", "(Change::Clear, Source::Number(_)) => \"CSRRCI\"", "(Change::Clear, Source::Number(_)) => \"CSRRC\""),
    Mutant("word.rs", "Instruction::HfenceGvma => fenced(*space, \"VMID\", \"VMIDs\"),", ""),
    Mutant("word.rs", "0 => format!(\"all {all}\"),", "32 => format!(\"all {all}\"),"),
    Mutant("word.rs", "the {one} in x{register}", "the {one} in x{register:x}"),
    Mutant("word.rs", "None => format!(\"register {:x}\", self.number),", "None => registers::title(self.number),"),
    Mutant("word.rs", "_ if source.is_zero() =>", "_ if source.is_zero() && target == 32 =>"),
    Mutant("word.rs", "read to x{target}", "read to x{target:x}"),
    Mutant("word.rs", "the old value to x{target}", "the old value to x{target:x}"),
    Mutant("word.rs", "write!(text, \"x{register}\")", "write!(text, \"x{register:x}\")"),
    Mutant("word.rs", "write!(text, \"{number:x}\")", "write!(text, \"{number}\")"),
    Mutant("word.rs", "Operation::LoadUnsigned => (\"HLV\", \"U\"),", "Operation::LoadUnsigned => (\"HLV\", \"\"),"),
    Mutant("word.rs", "Operation::LoadX => (\"HLVX\", \"U\"),", "Operation::LoadX => (\"HLVX\", \"\"),"),
    Mutant("word.rs", "1 => \"H\",\n            2 => \"W\",", "1 => \"W\",\n            2 => \"H\","),
    Mutant("word.rs", "Operation::Store => \"stored at\",", "Operation::Store => \"loaded from\","),
    Mutant("word.rs", "x{data} {done} the address in x{address}", "x{data:x} {done} the address in x{address}"),
    Mutant("word.rs", "x{data} {done} the address in x{address}", "x{data} {done} the address in x{address:x}"),
    Mutant("explain.rs", "word::described(happened.event)", "word::described(happened.event).filter(|_| explanation.why.is_none())"),
    Mutant("explain.rs", "word::described(happened.event)", "word::described(happened.event).filter(|_| explanation.why.is_some())"),
    // why an interrupt was taken, or none
    Mutant("pending.rs", "[11, 3, 7, 9, 1, 5, 10, 2, 6]", "[11, 3, 7, 9, 1, 5, 10, 6, 2]"),
    Mutant("pending.rs", "[Mode::M, Mode::Hs, Mode::Vs]", "[Mode::Hs, Mode::M, Mode::Vs]"),
    Mutant("pending.rs", "has(hart, MIP, *number)", "has(hart, MIP, *number) && number % 4 != 3"),
    Mutant("pending.rs", "has(hart, MIE, *number)", "has(hart, MIP, *number)"),
    Mutant("pending.rs", "!has(hart, MIDELEG, number) =>", "!has(hart, MIDELEG, number) || number == 5 =>"),
    Mutant("pending.rs", "!has(hart, HIDELEG, number) =>", "!has(hart, HIDELEG, number ^ 4) =>"),
    Mutant("pending.rs", "Mode::M => (\"mideleg\", 0),", "Mode::M => (\"mideleg\", 1),"),
    Mutant("pending.rs", "Mode::Hs => (\"hideleg\", 0),", "Mode::Hs => (\"mideleg\", 0),"),
    Mutant("pending.rs", "let (level, bit) = (self.level, self.number);", "let (level, bit) = (self.level, self.number & 7);"),
    Mutant("pending.rs", "\"mstatus\", \"MIE\")", "\"mstatus\", \"SIE\")"),
    Mutant("pending.rs", "(Mode::Hs, Mode::Hs) => switch(hart, MSTATUS, \"mstatus\", \"SIE\")", "(Mode::Hs, Mode::Hs) => switch(hart, VSSTATUS, \"mstatus\", \"SIE\")"),
    Mutant("pending.rs", "switch(hart, VSSTATUS, \"vsstatus\", \"SIE\")", "switch(hart, VSSTATUS, \"mstatus\", \"SIE\")"),
    Mutant("pending.rs", "(Mode::Hs, Mode::M) => Err(\"M is above HS\".to_owned()),", "(Mode::Hs, Mode::M) => Err(\"mstatus.SIE is 0\".to_owned()),"),
    Mutant("pending.rs", "(Mode::Vs, Mode::U | Mode::Hs | Mode::M)", "(Mode::Vs, Mode::Hs | Mode::M)"),
    Mutant("pending.rs", "_ => Ok(format!(\"{mode} is below {level}\")),", "_ => Ok(format!(\"{level} is above {mode}\")),"),
    Mutant("reason.rs", "if enabled.is_empty() && others.is_empty() {", "if enabled.is_empty() {"),
    Mutant("reason.rs", "let way = asking.first()?;", "let way = asking.last()?;"),
    Mutant("reason.rs", "\"interrupt {number:x} goes to {way}; {passes}\"", "\"interrupt {number} goes to {way}; {passes}\""),
    // interrupts in words
    Mutant("interrupts.rs", "Outcome::Done => none_due(happened),", ""),
    Mutant("interrupts.rs", "(\"pending and enabled\", enabled),", "(\"pending and enabled\", others.clone()),"),
    Mutant("interrupts.rs", "Some(Mode::Hs) => \"to HS: mideleg hands it down, hideleg does not\".to_owned(),", ""),
    Mutant("interrupts.rs", "held(after, VSCAUSE) & !names::INTERRUPT);", "(held(after, VSCAUSE) & !names::INTERRUPT) + 1);"),
    Mutant("interrupts.rs", "filter(|way| way.gate.is_ok())", "filter(|way| way.number > 0)"),
    Mutant("interrupts.rs", "due.filter(|way| way.number != taken)", "due.filter(|way| way.number <= taken)"),
    Mutant("interrupts.rs", "|way| way.level == first.level", "|way| way.number > first.number"),
    Mutant("interrupts.rs", "if !lower.is_empty() {", "if lower.len() > 9 {"),
    Mutant("interrupts.rs", "|one, next| one.level == next.level", "|one, next| one.number > next.number"),
    Mutant("interrupts.rs", "Some(Mode::Hs) => (STVEC, SCAUSE),", "Some(Mode::Hs) => (VSTVEC, SCAUSE),"),
    Mutant("interrupts.rs", "(word & !3, held(after, cause) & !names::INTERRUPT)", "(word, held(after, cause) & !names::INTERRUPT)"),
    Mutant("interrupts.rs", "plus 4 times {number:x}\")", "plus 4 times {number}\")"),
    Mutant("interrupts.rs", "registers::get(tvec, \"MODE\", word)", "registers::get(tvec, \"BASE\", word)"),
    Mutant("names.rs", "6 => \"VS timer\",", "6 => \"supervisor timer\","),
    Mutant("names.rs", "if word & INTERRUPT == 0 {", "if word & INTERRUPT == 0 || word & 2 == 2 {"),
    // views, and what of a write was not stored
    Mutant("views.rs", "SIE => (MIE, 0, Some(MIDELEG)),\n        SIP", "SIE => (MIE, 0, None),\n        SIP"),
    Mutant("views.rs", "SIP => (MIP, 0, Some(MIDELEG)),", "SIP => (MIP, 0, Some(HIDELEG)),"),
    Mutant("views.rs", "VSIE => (MIE, 1, Some(HIDELEG)),", "VSIE => (MIE, 0, Some(HIDELEG)),"),
    Mutant("views.rs", "VSIP => (MIP, 1, Some(HIDELEG)),", "VSIP => (MIE, 1, Some(HIDELEG)),"),
    Mutant("views.rs", "HIE => (MIE, 0, None),", "HIE => (MIE, 0, Some(HIDELEG)),"),
    Mutant("views.rs", "HIP | HVIP => (MIP, 0, None),", "HIP | HVIP => (MIE, 0, None),"),
    Mutant("views.rs", "SSTATUS => (MSTATUS, 0, None),", ""),
    Mutant("views.rs", "view.shift & !open(hart, &view);", "view.shift;"),
    Mutant("views.rs", "field.low + view.shift", "field.low"),
    Mutant("views.rs", "if old == new {", "if old > new {"),
    Mutant("views.rs", "        0 => change,\n", "        1 => change,\n"),
    Mutant("writes.rs", "Writer::Own if field.is_constant() => Why::One,", ""),
    Mutant("writes.rs", "Writer::Nothing => Why::Given,", "Writer::Nothing => Why::One,"),
    Mutant("writes.rs", "field.is_bit() && field.of(asked) != field.of(new)", "field.is_bit() && field.of(asked) > field.of(new)"),
    Mutant("writes.rs", "|field| Why::of(field) == why", "|field| field.low > 0"),
    Mutant("fields.rs", "kept(\"MTI\", 7, Writer::Nothing),", "kept(\"MTI\", 7, BY_HVIP),"),
    Mutant("fields.rs", "kept(\"SEI\", 9, BY_MIP)", "kept(\"SEI\", 9, BY_HVIP)"),
    Mutant("fields.rs", "kept(\"VSTI\", 6, BY_HVIP),\n    kept(\"VSEI\", 10, BY_HVIP),\n]", "kept(\"VSTI\", 6, BY_HVIP),\n    kept(\"VSEI\", 10, BY_MIP),\n]"),
    Mutant("registers.rs", "handed(\"interrupt\", &parts(number, fields, word))", "handed(\"cause\", &parts(number, fields, word))"),
    // what else is said
    Mutant("events.rs", "&[\"SPV\", \"SPVP\", \"GVA\"]", "&[\"SPV\", \"GVA\"]"),
    Mutant("events.rs", "&[0x241, 0x242, 0x243]", "&[0x141, 0x142, 0x143]"),
    Mutant("events.rs", "let in_vs = Mode::of_hart(hart) == Some(Mode::Vs);", "let in_vs = false; let _ = hart;"),
    Mutant("events.rs", "_ if old == new => format!(\"{register} stays {old:x}\"),", ""),
    Mutant("events.rs", "Some(Mode::Hs) if guest =>", "Some(Mode::Hs) if !guest =>"),
    Mutant("writes.rs", "(matches!(number, SATP | VSATP) &&", "(number == VSATP &&"),
    Mutant("writes.rs", "&& !mode.takes(value))", "&& !mode.takes(value | 1))"),
    Mutant("writes.rs", "MODE is {value:x}, it may", "MODE is {value}, it may"),
    Mutant("writes.rs", "match bits(asked & !visible(number, asked)) {", "match bits(asked & !visible(number, asked) & 0xff) {"),
    Mutant("writes.rs", "field.is_constant() && value == 0", "field.is_constant() && value != 1"),
    Mutant("registers.rs", "parts.push(format!(\"but {field}", "let _ = (&field, value, &may); false.then(|| format!(\"but {field}"),
    Mutant("events.rs", "Instruction::Mret if mpp == 3 => {", "Instruction::Mret if mpp == 1 => {"),
    Mutant("events.rs", "if !matches!(action, Action::Read) {", "if false {"),
    Mutant("registers.rs", "if number == HGATP { \"x4\" }", "if number == VSATP { \"x4\" }"),
    Mutant("registers.rs", "\"Sv{}{suffix}\", offset_bits(levels)", "\"Sv{}{suffix}\", offset_bits(levels.min(4))"),
    Mutant("registers.rs", "(\"MPP\", 1) => \"S\",", "(\"MPP\", 1) => \"M\","),
    Mutant("names.rs", "9 => \"environment call from HS\",", "9 => \"environment call from VS\","),
    Mutant("explain.rs", "\"the guest entry at level {:x}\"", "\"the guest entry at entry {:x}\""),
    Mutant("explain.rs", "view.by.map_or(String::new(),", "view.by.filter(|by| *by == \"SPVP\").map_or(String::new(),"),
    Mutant("explain.rs", "view.by.map_or(String::new(),", "view.by.filter(|by| *by == \"MPRV\").map_or(String::new(),"),
    Mutant("explain.rs", "(Kind::Load, Right::X) => \", with X in place of R\",", ""),
    Mutant("explain.rs", "Outcome::Trapped(2 | 22)) {", "Outcome::Trapped(2 | 4 | 6 | 22)) {"),
    Mutant("explain.rs", "explanation.lines.splice(1..1, lines);", "explanation.lines.extend(lines);"),
    Mutant("explain.rs", "explanation.lines.splice(1..1, lines);\n        explanation.why = walk.end.err().map(|stop| stop.to_string());", "explanation.lines.splice(1..1, lines);"),
    Mutant("guest.rs", "Transfer::Load { signed: true } =>", "Transfer::Load { .. } =>"),
    Mutant("guest.rs", "_ if access.width == 8 =>", "_ if access.width == 4 =>"),
    Mutant("guest.rs", "format!(\"{:x} stored there, it held {overwritten:x}\", low(value))", "format!(\"{value:x} stored there, it held {overwritten:x}\")"),
    Mutant("guest.rs", "u64::MAX >> (64 - 8 * access.width)", "u64::MAX >> (63 - 7 * access.width)"),
    Mutant("guest.rs", "(SCAUSE, STVAL, HTVAL, HTINST)", "(SCAUSE, STVAL, HTVAL, MTINST)"),
    Mutant("guest.rs", "(MCAUSE, MTVAL, MTVAL2, MTINST)", "(MCAUSE, MTVAL, HTVAL, MTINST)"),
    Mutant("guest.rs", "(MCAUSE, MTVAL, MTVAL2, MTINST)", "(MCAUSE, STVAL, MTVAL2, MTINST)"),
    Mutant("guest.rs", "(MCAUSE, MTVAL, MTVAL2, MTINST)", "(SCAUSE, MTVAL, MTVAL2, MTINST)"),
    Mutant("run.rs", "hart.hlv(image, access.width, false, access.address, word)", "hart.hlv(image, 1, false, access.address, word)"),
    Mutant("explain.rs", "if matches!(fault.cause, 20 | 21 | 23) {", "if fault.second != 0 && fault.cause == 21 {"),
    Mutant("explain.rs", "if fault.word == GUEST_ENTRY {", "if fault.word == GUEST_ENTRY && fault.cause == 21 {"),
    Mutant("walk.rs", "} else if level == 0 {\n        \"a pointer, where", "} else if level == 3 {\n        \"a pointer, where"),
    Mutant("walk.rs", "if target & ((1 << offset_bits(level)) - 1) != 0 {", "if target & ((1 << offset_bits(level)) - 1) == 1 {"),
    Mutant("tree.rs", "below.extend(step_node(paint, stage, others));", "let _ = others;"),
    Mutant("tree.rs", "step.index,\n        step.address()", "step.level,\n        step.address()"),
];

fn source() -> PathBuf {
    Path::new(env!("CARGO_MANIFEST_DIR")).join("src")
}

#[test]
fn every_mutant_still_fits_the_source() {
    for mutant in MUTANTS {
        mutant.changed_text(&source());
    }
}

/// The folder of the built programs.
fn built() -> PathBuf {
    let test = std::env::current_exe().expect("the test knows its path");
    let folder = test.parent().and_then(Path::parent);
    folder.expect("it lies in deps").to_owned()
}

/// The wrapper's compiled library: the newest, if several were built.
fn wrapper() -> PathBuf {
    let files = std::fs::read_dir(built().join("deps")).expect("the libraries are read");
    let paths = files.map(|file| file.expect("a file is read").path());
    let found = paths.filter(|path| {
        let name = path.file_name().unwrap_or_default().to_string_lossy();
        name.starts_with("libbalcumentri-") && name.ends_with(".rlib")
    });
    let newest = found.max_by_key(|path| path.metadata().and_then(|data| data.modified()).ok());
    newest.expect("the wrapper is built")
}

/// Compiles the program with one change; its path.
fn build(mutant: &Mutant, folder: &Path) -> PathBuf {
    mutant.copy(&source(), folder);
    let mut library = OsString::from("--extern=balcumentri=");
    library.push(wrapper());
    mutant.compile(
        folder,
        &["--crate-name=mutant".into(), "main.rs".into(), library],
    );
    folder.join("mutant")
}

/// Whether a program explains an example, or draws it, otherwise than its golden file.
fn changes_an_example(program: &Path) -> bool {
    let examples = Path::new(env!("CARGO_MANIFEST_DIR")).join("../../examples");
    let mut files = std::fs::read_dir(examples).expect("the examples are read");
    files.any(|file| {
        let golden = file.expect("a file is read").path();
        let option = match golden.extension().and_then(|end| end.to_str()) {
            Some("explained") => "--explain",
            Some("tree") => "--explain=tree",
            _ => return false,
        };
        let script = golden.with_extension("replay");
        let output = Command::new(program).arg(option).arg(script).output();
        let written = output.expect("the program ends").stdout;
        written != std::fs::read(golden).expect("the golden file is read")
    })
}

/// Whether a full comparison with the second program finds a difference.
fn compared_differs(program: &Path, seed: usize) -> bool {
    let output = Command::new(built().join("compare"))
        .arg(program)
        .arg(built().join("second"))
        .args(["--events", "200000", "--seed", &seed.to_string()])
        .output();
    let text = output.expect("the programs are built").stdout;
    String::from_utf8_lossy(&text).contains("FAILED: the programs differ")
}

#[test]
#[ignore = "takes minutes"]
fn every_mutant_is_caught() {
    let folder = Folder::new().expect("a folder is made");
    let mut missed = Vec::new();
    for (place, mutant) in MUTANTS.iter().enumerate() {
        let program = build(mutant, &folder.path().join("mutant"));
        let (golden, compared) = (
            changes_an_example(&program),
            compared_differs(&program, place),
        );
        println!("{mutant}: examples {golden}, comparison {compared}");
        if !golden && !compared {
            missed.push(mutant.to_string());
        }
    }
    assert!(missed.is_empty(), "{missed:#?}");
}
