//! An access followed along its list of reads: in which table each entry stands, where it leads, and where and why the walk ended.
//! It explains answers and decides none.

use crate::names::Mode;
use crate::registers::{
    bits, get, levels, offset_bits, HGATP, HSTATUS, MSTATUS, SATP, VSATP, VSSTATUS,
};
use crate::script::{GuestAccess, Transfer};
use balcumentri::{Access, Hart, Kind, Read};
use std::fmt;
use std::slice::Iter;

/// The right that an access needs of a page. MXR lets X do for R.
#[derive(Clone, Copy, PartialEq, Eq)]
pub enum Right {
    R,
    W,
    X,
}

/// An access, with what it takes from the hart.
pub struct View {
    pub access: Access,
    pub needs: Right,
    /// The effective mode.
    pub mode: Mode,
    /// The field that makes it so where it is not the hart's own: MPRV or SPVP.
    pub by: Option<&'static str>,
    sum: bool,
    guest_mxr: bool,
    mxr: bool,
    /// The first stage that is on: satp or vsatp.
    pub first: Option<Table>,
    /// The second stage, if it is on.
    pub second: Option<Table>,
}

/// A register that names a root table, and how many levels there are.
#[derive(Clone, Copy)]
pub struct Table {
    pub part: Part,
    root: u64,
    levels: u64,
}

impl Table {
    /// The level of the root.
    fn top(self) -> u64 {
        self.levels - 1
    }

    /// How many low bits of an address the tables translate, with the offset in a page: the second stage's root has four times as
    /// many entries as another table.
    fn bits(self) -> u64 {
        offset_bits(self.levels) + if self.part.is_first() { 0 } else { 2 }
    }

    /// An address's index into the table of a level.
    fn index(self, address: u64, level: u64) -> u64 {
        let wide = !self.part.is_first() && level == self.top();
        address >> offset_bits(level) & if wide { 0x7ff } else { 0x1ff }
    }

    /// The rule about an address's high bits, where it is broken.
    fn high_bits(self, address: u64) -> Option<String> {
        let (bits, sign) = (self.bits(), self.bits() - 1);
        if self.part.is_first() {
            let high = address as i64 >> sign;
            (high != 0 && high != -1)
                .then(|| format!("bits 63:{bits} of {address:x} are not all equal to bit {sign}"))
        } else {
            (address >> bits != 0).then(|| format!("bits 63:{bits} of {address:x} are not all 0"))
        }
    }
}

impl View {
    /// That of a fetch, load or store. None where the hart is in no mode.
    pub fn of_access(hart: &Hart, access: Access) -> Option<Self> {
        let status = |name| field(hart, MSTATUS, name);
        let mut mode = Mode::of_hart(hart)?;
        let by_mprv = mode == Mode::M && access.kind != Kind::Fetch && status("MPRV") == 1;
        if by_mprv {
            let v = if status("MPP") == 3 { 0 } else { status("MPV") };
            mode = Mode::of(v, status("MPP"))?;
        }
        let needs = match access.kind {
            Kind::Fetch => Right::X,
            Kind::Load => Right::R,
            Kind::Store => Right::W,
        };
        let by = by_mprv.then_some("MPRV");
        Some(View::in_mode(hart, access, needs, mode, by))
    }

    /// That of a hypervisor load or store.
    pub fn of_guest(hart: &Hart, access: &GuestAccess) -> Self {
        let mode = match field(hart, HSTATUS, "SPVP") {
            0 => Mode::Vu,
            _ => Mode::Vs,
        };
        let needs = match access.transfer {
            Transfer::Load { .. } => Right::R,
            Transfer::LoadX => Right::X,
            Transfer::Store { .. } => Right::W,
        };
        View::in_mode(hart, access.access(), needs, mode, Some("SPVP"))
    }

    fn in_mode(
        hart: &Hart,
        access: Access,
        needs: Right,
        mode: Mode,
        by: Option<&'static str>,
    ) -> Self {
        let table = |number, part| {
            let root = field(hart, number, "PPN") << 12;
            levels(field(hart, number, "MODE")).map(|levels| Table { part, root, levels })
        };
        let guest = mode.is_guest();
        let own = if guest { VSSTATUS } else { MSTATUS };
        View {
            access,
            needs,
            mode,
            by,
            sum: field(hart, own, "SUM") == 1,
            guest_mxr: field(hart, VSSTATUS, "MXR") == 1,
            mxr: field(hart, MSTATUS, "MXR") == 1,
            first: match mode {
                Mode::M => None,
                _ if guest => table(VSATP, Part::Vsatp),
                _ => table(SATP, Part::Satp),
            },
            second: table(HGATP, Part::Access).filter(|_| guest),
        }
    }

    fn is_fetch(&self) -> bool {
        self.access.kind == Kind::Fetch
    }
}

/// What a field of a stored register holds.
fn field(hart: &Hart, number: u64, name: &str) -> u64 {
    get(number, name, hart.register(number).unwrap_or(0))
}

/// A part of a walk.
#[derive(Clone, Copy, PartialEq, Eq)]
pub enum Part {
    /// The first stage with effective V=0.
    Satp,
    /// The first stage with effective V=1.
    Vsatp,
    /// The second stage for a guest entry.
    GuestEntry,
    /// The second stage for the access.
    Access,
}

impl Part {
    pub fn is_first(self) -> bool {
        matches!(self, Part::Satp | Part::Vsatp)
    }
}

/// A stage's way through its tables.
pub struct Stage {
    pub part: Part,
    /// The address that it translates.
    pub address: u64,
    pub steps: Vec<Step>,
}

/// An entry on the way.
pub struct Step {
    pub level: u64,
    pub table: u64,
    pub index: u64,
    /// For a guest entry, its way through the second stage.
    pub through: Option<Stage>,
    /// The entry's machine address, if the walk came so far.
    pub machine: Option<u64>,
    /// What was read there, if it lies in the image.
    pub read: Option<Read>,
    /// The rule that the entry breaks.
    pub broken: Option<&'static str>,
}

impl Step {
    /// The entry's address: guest physical for a guest entry.
    pub fn address(&self) -> u64 {
        self.table + 8 * self.index
    }
}

/// Where and why a walk ended with a fault.
pub struct Stop {
    place: String,
    rule: String,
}

impl fmt::Display for Stop {
    fn fmt(&self, text: &mut fmt::Formatter<'_>) -> fmt::Result {
        write!(text, "{}: {}", self.place, self.rule)
    }
}

/// A walk: its first stage, its second stage for the access, and the machine address that it came to, or why it ended with a fault.
pub struct Walk {
    pub first: Option<Stage>,
    pub second: Option<Stage>,
    pub end: Result<u64, Stop>,
}

/// Follows an access that was not refused along the entries read for it. It either faulted or came to its end.
pub fn follow(view: &View, reads: &[Read], faulted: bool) -> Walk {
    let reads = reads.iter();
    let (mut first, mut second) = (None, None);
    let reached = Follower { view, reads }.walk(&mut first, &mut second);
    let end = match reached {
        Ok(address) if faulted => Err(at_access(outside(address))),
        reached => reached,
    };
    Walk { first, second, end }
}

struct Follower<'a> {
    view: &'a View,
    reads: Iter<'a, Read>,
}

impl Follower<'_> {
    /// Follows the stages, each put into its place; the machine address that they yield, or why they don't.
    fn walk(&mut self, first: &mut Option<Stage>, second: &mut Option<Stage>) -> Result<u64, Stop> {
        let Access { address, width, .. } = self.view.access;
        if !address.is_multiple_of(width) {
            let rule = format!("{address:x} is not a multiple of {width:x}");
            return Err(at_access(rule));
        }
        let mut reached = address;
        for (table, stage) in [(self.view.first, first), (self.view.second, second)] {
            if let Some(table) = table {
                reached = self.stage(table, reached, stage)?;
            }
        }
        Ok(reached)
    }

    /// Follows a stage, which is put into `stage`; what it yields, or why it doesn't.
    fn stage(&mut self, from: Table, address: u64, stage: &mut Option<Stage>) -> Result<u64, Stop> {
        let part = from.part;
        let stage = stage.insert(Stage {
            part,
            address,
            steps: Vec::new(),
        });
        if let Some(rule) = from.high_bits(address) {
            return Err(stop(part, address, None, rule));
        }
        let (mut table, mut level) = (from.root, from.top());
        loop {
            let mut step = Step {
                level,
                table,
                index: from.index(address, level),
                through: None,
                machine: None,
                read: None,
                broken: None,
            };
            let next = self.step(part, address, &mut step);
            stage.steps.push(step);
            match next? {
                Next::Table(below) => (table, level) = (below, level.saturating_sub(1)),
                Next::Page(page) => return Ok(page | address & ((1 << offset_bits(level)) - 1)),
            }
        }
    }

    /// Follows the way to one entry, and what it leads to.
    fn step(&mut self, part: Part, address: u64, step: &mut Step) -> Result<Next, Stop> {
        let level = step.level;
        let mut at = step.address();
        if let (Part::Vsatp, Some(second)) = (part, self.view.second) {
            let entry = Table {
                part: Part::GuestEntry,
                ..second
            };
            at = self.stage(entry, at, &mut step.through)?;
        }
        step.machine = Some(at);
        step.read = self.reads.next().copied();
        let Some(read) = step.read else {
            let rule = format!("the entry at {}", outside(at));
            return Err(stop(part, address, Some(level), rule));
        };
        self.judged(part, level, read.value).map_err(|rule| {
            step.broken = Some(rule);
            stop(part, address, Some(level), rule)
        })
    }

    /// What an entry leads to, or the rule that it breaks.
    fn judged(&self, part: Part, level: u64, entry: u64) -> Result<Next, &'static str> {
        let pointer = !has(entry, R) && !has(entry, X);
        let low_ppn = (1 << (offset_bits(level) - 12)) - 1;
        if !has(entry, V) {
            Err("V is 0")
        } else if has(entry, W) && !has(entry, R) {
            Err("W without R")
        } else if entry >> 54 != 0 {
            Err("a bit of 63:54 is set")
        } else if pointer && has(entry, A) {
            Err("a pointer with A")
        } else if pointer && has(entry, D) {
            Err("a pointer with D")
        } else if pointer && has(entry, U) {
            Err("a pointer with U")
        } else if pointer && level == 0 {
            Err("a pointer at level 0")
        } else if pointer {
            Ok(Next::Table(target(entry)))
        } else if target(entry) >> 12 & low_ppn != 0 {
            Err("a large leaf whose low PPN is not 0")
        } else {
            self.leaf(part, entry)?;
            Ok(Next::Page(target(entry)))
        }
    }

    /// The rules of a leaf alone.
    fn leaf(&self, part: Part, entry: u64) -> Result<(), &'static str> {
        let stores = self.view.needs == Right::W && part != Part::GuestEntry;
        if !has(entry, A) {
            return Err("A is 0");
        }
        if stores && !has(entry, D) {
            return Err("a store needs D");
        }
        if part.is_first() {
            self.user(entry)?;
        } else if !has(entry, U) {
            return Err("the second stage needs U");
        }
        self.right(part, entry)
    }

    /// The rule about the right that the access needs of its page, or the hart of a guest entry's.
    fn right(&self, part: Part, entry: u64) -> Result<(), &'static str> {
        let View { mxr, guest_mxr, .. } = *self.view;
        let reads = |opens| has(entry, R) || opens && has(entry, X);
        let (allowed, rule) = match (part, self.view.needs) {
            (Part::GuestEntry, _) => (reads(false), "a read of a guest entry needs R"),
            (_, Right::W) => (has(entry, W), "a store needs W"),
            (_, Right::X) if self.view.is_fetch() => (has(entry, X), "a fetch needs X"),
            (_, Right::X) => (has(entry, X), "HLVX needs X"),
            (Part::Vsatp, Right::R) => {
                let rule = "a load needs R, or X with vsstatus.MXR or mstatus.MXR";
                (reads(mxr || guest_mxr), rule)
            }
            (_, Right::R) => (reads(mxr), "a load needs R, or X with mstatus.MXR"),
        };
        if allowed {
            Ok(())
        } else {
            Err(rule)
        }
    }

    /// The first stage's rules about U.
    fn user(&self, entry: u64) -> Result<(), &'static str> {
        let View { mode, sum, .. } = *self.view;
        match (mode.is_user(), has(entry, U)) {
            (true, false) => Err("user mode needs U"),
            (false, true) if self.view.is_fetch() => {
                Err("supervisor mode may not fetch from a U page")
            }
            (false, true) if !sum && mode.is_guest() => {
                Err("supervisor mode needs vsstatus.SUM on a U page")
            }
            (false, true) if !sum => Err("supervisor mode needs mstatus.SUM on a U page"),
            _ => Ok(()),
        }
    }
}

/// What an entry that breaks no rule leads to.
enum Next {
    Table(u64),
    Page(u64),
}

fn at_access(rule: String) -> Stop {
    Stop {
        place: "the access".to_owned(),
        rule,
    }
}

fn stop(part: Part, address: u64, level: Option<u64>, rule: impl Into<String>) -> Stop {
    let part = match part {
        Part::Satp => "first stage (satp)".to_owned(),
        Part::Vsatp => "first stage (vsatp)".to_owned(),
        Part::GuestEntry => format!("second stage for the guest entry at {address:x}"),
        Part::Access => format!("second stage for the access at {address:x}"),
    };
    Stop {
        place: match level {
            Some(level) => format!("{part}, level {level:x}"),
            None => part,
        },
        rule: rule.into(),
    }
}

/// What is missing for a machine address.
fn outside(address: u64) -> String {
    let page = address & !0xfff;
    format!("{address:x} is outside the image: page {page:x} is missing")
}

const V: u32 = 0;
const R: u32 = 1;
const W: u32 = 2;
const X: u32 = 3;
const U: u32 = 4;
const A: u32 = 6;
const D: u32 = 7;

fn has(entry: u64, flag: u32) -> bool {
    entry >> flag & 1 == 1
}

/// The table or page of an entry's PPN.
fn target(entry: u64) -> u64 {
    (entry >> 10 & ((1 << 44) - 1)) << 12
}

/// An entry's flags, and which of its reserved bits are set.
pub fn flags(entry: u64) -> String {
    let letters = "VRWXUGAD".chars().zip(0..);
    let flags: String = letters
        .map(|(letter, bit)| if has(entry, bit) { letter } else { '-' })
        .collect();
    match bits(entry >> 54 << 54) {
        (0, _) => flags,
        (1, bit) => format!("{flags} with bit {bit}"),
        (_, bits) => format!("{flags} with bits {bits}"),
    }
}

/// What an entry is. With effective V=1 the first stage's addresses are guest physical.
pub fn leads(part: Part, level: u64, entry: u64) -> String {
    let guest = if part == Part::Vsatp {
        "guest physical "
    } else {
        ""
    };
    let target = target(entry);
    if !has(entry, V) {
        "not valid".to_owned()
    } else if has(entry, W) && !has(entry, R) {
        "neither a leaf nor a pointer: W without R is reserved".to_owned()
    } else if has(entry, R) || has(entry, X) {
        let size = match level {
            0 => "4 KiB",
            1 => "2 MiB",
            2 => "1 GiB",
            3 => "512 GiB",
            _ => "256 TiB",
        };
        if target & ((1 << offset_bits(level)) - 1) != 0 {
            return format!("a leaf, but no {size} page begins at {guest}{target:x}");
        }
        format!("a leaf: the {size} page at {guest}{target:x}")
    } else if level == 0 {
        "a pointer, where only a leaf may be".to_owned()
    } else {
        format!("a pointer to the table at {guest}{target:x}")
    }
}
