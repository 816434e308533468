//! "The walk": translation of a fetch, a load or a store through the first stage (Sv39, Sv48 or Sv57) and the second stage (Sv39x4,
//! Sv48x4 or Sv57x4). "Show the walk once over the number of levels" (2026-05): the MODE of a stage says how many levels its tables
//! have, 3, 4 or 5, and everything else follows from that.
//!
//! A translation never changes the hart. It answers an address, a refusal number or a fault, and the list of the entries that
//! it read. Beside that it says why: which rule ended it ([`Why`]), or what made it refused.

use crate::address::{GuestPhysical, Machine};
use crate::bits::{bit, field, low_ones};
use crate::hart::{Hart, Mode};
use crate::image::Image;
use crate::reasons::Reason;
use crate::registers::{atp_levels, atp_ppn, mpp, MPRV, MPV, MXR, SUM};
use crate::trap::{Refusal, Trap};

/// Fetch, load or store.
#[derive(Clone, Copy, PartialEq, Eq, Debug, PartialOrd, Ord)]
pub enum Kind {
    /// A fetch.
    Fetch,
    /// A load.
    Load,
    /// A store.
    Store,
}

impl Kind {
    /// Access fault: 1, 5, 7.
    fn access_fault(self) -> u64 {
        match self {
            Kind::Fetch => 1,
            Kind::Load => 5,
            Kind::Store => 7,
        }
    }

    /// Page fault: 12, 13, 15.
    fn page_fault(self) -> u64 {
        match self {
            Kind::Fetch => 12,
            Kind::Load => 13,
            Kind::Store => 15,
        }
    }

    /// Guest-page fault: 20, 21, 23.
    fn guest_page_fault(self) -> u64 {
        match self {
            Kind::Fetch => 20,
            Kind::Load => 21,
            Kind::Store => 23,
        }
    }
}

/// An access: what the walk is fed beside the hart and the image.
#[derive(Clone, Copy, PartialEq, Eq, Debug)]
pub struct Access {
    /// Fetch, load or store.
    pub kind: Kind,
    /// The virtual address.
    pub address: u64,
    /// The number of bytes.
    pub width: u64,
}

impl Access {
    /// Refusal 3: "width not 1, 2, 4 or 8; a fetch whose width isn't 4 or whose address isn't a multiple of 4". What makes the
    /// model refuse the access, if something does.
    pub fn refusal(&self) -> Option<BadAccess> {
        let fetch = self.kind == Kind::Fetch;
        if !matches!(self.width, 1 | 2 | 4 | 8) {
            Some(BadAccess::Width(self.width))
        } else if fetch && self.width != 4 {
            Some(BadAccess::FetchWidth(self.width))
        } else if fetch && !self.address.is_multiple_of(4) {
            Some(BadAccess::FetchAddress(self.address))
        } else {
            None
        }
    }

    /// Whether the address is not a multiple of the width (which is 1, 2, 4 or 8).
    fn is_misaligned(&self) -> bool {
        !self.address.is_multiple_of(self.width)
    }
}

/// What makes the model refuse an access as 3.
#[derive(Clone, Copy, PartialEq, Eq, Debug)]
pub enum BadAccess {
    /// The width is none of 1, 2, 4 and 8.
    Width(u64),
    /// The width of a fetch isn't 4.
    FetchWidth(u64),
    /// The address of a fetch isn't a multiple of 4.
    FetchAddress(u64),
    /// The width of HLVX is 1 or 8.
    HlvxWidth(u64),
}

/// One item of the list of reads.
#[derive(Clone, Copy, PartialEq, Eq, Debug, Default)]
pub struct Read {
    /// 1 first, 2 second.
    pub stage: u64,
    /// The level: 4 to 0.
    pub level: u64,
    /// The entry's machine address.
    pub address: u64,
    /// The entry.
    pub value: u64,
}

/// The places of the list: "the list of reads grows to thirty-five places" (2026-05).
pub const PLACES: usize = 35;

/// "The list of reads holds fifteen places", now thirty-five, "[...] and their count; unused places are zero."
#[derive(Clone, Copy, PartialEq, Eq, Debug)]
pub struct List {
    /// The thirty-five places.
    pub places: [Read; PLACES],
    /// How many of them are used.
    pub count: usize,
}

impl Default for List {
    /// The empty list.
    fn default() -> List {
        List {
            places: [Read::default(); PLACES],
            count: 0,
        }
    }
}

impl List {
    /// The used places.
    pub fn items(&self) -> &[Read] {
        self.places.get(..self.count).unwrap_or(&[])
    }

    /// Lists one more read. "n levels over m levels read at most (n+1)(m+1)-1 entries, so 15, 24, 35" (2026-05): m for each of n
    /// guest entries, those n, and m more.
    fn push(&mut self, read: Read) {
        if let Some(place) = self.places.get_mut(self.count) {
            *place = read;
            self.count += 1;
        }
    }
}

/// "A translation answers an address, a refusal number or a fault (cause, value, second value, word, flag)".
#[derive(Clone, Copy, PartialEq, Eq, Debug)]
pub enum Answer {
    /// The machine address.
    Address(Machine),
    /// The number of the refusal.
    Refused(u64),
    /// The fault.
    Fault(Trap),
}

/// The rules that end a walk with a fault.
#[derive(Clone, Copy, PartialEq, Eq, Debug, PartialOrd, Ord)]
pub enum Rule {
    /// "Misaligned load or store: 4 or 6, before all else."
    Misaligned,
    /// The bits of the address from this one up, at the first stage 39, 48 or 57: they are not equal to the bit below. At the second
    /// stage 41, 50 or 59: they are not zero.
    HighBits(u32),
    /// "An entry outside the image".
    EntryOutside,
    /// "V=0".
    NotValid,
    /// "W without R".
    WriteWithoutRead,
    /// "any of bits 63:54".
    ReservedBits,
    /// "a pointer with A".
    PointerWithA,
    /// "a pointer with [...] D".
    PointerWithD,
    /// "a pointer with [...] U".
    PointerWithU,
    /// "a pointer at level 0".
    PointerAtLevelZero,
    /// "a large leaf with nonzero low PPN".
    LargeLeafLowPpn,
    /// "A=0".
    NotAccessed,
    /// "a store with D=0".
    NotDirty,
    /// First stage: "user mode needs U=1". Second stage: "always U=1".
    NotUser,
    /// "supervisor on a U=1 page may not fetch".
    SupervisorFetch,
    /// "and needs SUM for data".
    SupervisorNeedsSum,
    /// "Loads need R, or X with MXR"; the hart's reads of guest entries "need R".
    NotReadable,
    /// "stores need W".
    NotWritable,
    /// "fetches X".
    NotExecutable,
    /// "HLVX needs X in place of R at both stages".
    NotExecutableForHlvx,
    /// "At the end the whole access must lie in the image".
    AccessOutside,
}

/// The part of the walk in which a rule held.
#[derive(Clone, Copy, PartialEq, Eq, Debug, PartialOrd, Ord)]
pub enum Part {
    /// The access itself, before or after its stages.
    Access,
    /// The first stage with effective V=0 (satp).
    Satp,
    /// The first stage with effective V=1 (vsatp).
    Vsatp,
    /// The second stage for a guest entry.
    HgatpForEntry,
    /// The second stage for the access itself.
    HgatpForAccess,
}

/// Why a walk ended with a fault.
#[derive(Clone, Copy, PartialEq, Eq, Debug)]
pub struct Why {
    /// The rule.
    pub rule: Rule,
    /// Where it held.
    pub part: Part,
    /// The level of the entry, for rules about an entry.
    pub level: Option<u64>,
    /// What the rule is about: the address with wrong low or high bits, the entry's machine address, or the access's.
    pub address: u64,
    /// The width of the access.
    pub width: u64,
    /// What the second stage was on the way to, for its two parts.
    pub guest: Option<GuestPhysical>,
}

/// What a fault is counted by: its rule, its part and its level.
pub type Key = (Rule, Part, Option<u64>);

impl Why {
    /// What it is counted by.
    pub fn key(&self) -> Key {
        (self.rule, self.part, self.level)
    }
}

/// What a translation gives.
#[derive(Clone, Copy, PartialEq, Eq, Debug)]
pub struct Translation {
    /// The answer.
    pub answer: Answer,
    /// The list of reads.
    pub list: List,
    /// Why it ended with a fault.
    pub why: Option<Why>,
    /// Why it was refused.
    pub refusal: Option<Refusal>,
}

impl Translation {
    /// Why it is a refusal or a fault.
    pub fn reason(&self) -> Option<Reason> {
        let refused = self.refusal.map(Reason::Refused);
        refused.or(self.why.map(Reason::Fault))
    }
}

/// A translation. "Order: 2, then 1, then the call's own", which is 3. "A refused access answers its number [...] with the
/// list empty."
pub fn translate(hart: &Hart, image: &Image, access: &Access) -> Translation {
    let mode = match hart.check() {
        Ok(mode) => mode,
        Err(bad) => return refused(Refusal::Hart(bad)),
    };
    if let Some(bad) = image.refusal() {
        return refused(Refusal::Image(bad));
    }
    if let Some(bad) = access.refusal() {
        return refused(Refusal::Access(bad));
    }
    let manner = Manner {
        mode: effective_mode(hart, mode, access.kind),
        needs_x: false,
    };
    let Walked { end, list } = walk(hart, image, access, manner);
    Translation {
        answer: match &end {
            Ok(address) => Answer::Address(*address),
            Err(fault) => Answer::Fault(fault.trap),
        },
        list,
        why: end.err().map(|fault| fault.why),
        refusal: None,
    }
}

/// How an access is made.
#[derive(Clone, Copy, PartialEq, Eq, Debug)]
pub struct Manner {
    /// The effective mode.
    pub mode: Mode,
    /// "HLVX needs X in place of R at both stages and faults as a load": whether it is this load.
    pub needs_x: bool,
}

/// What a walk gives: the machine address or the fault, and the list of reads.
#[derive(Clone, Copy, PartialEq, Eq, Debug)]
pub struct Walked {
    /// How it ended.
    pub end: Result<Machine, Fault>,
    /// The list of reads.
    pub list: List,
}

/// The walk of an access that is not refused.
pub fn walk(hart: &Hart, image: &Image, access: &Access, manner: Manner) -> Walked {
    let mut walk = Walk {
        hart,
        image,
        access,
        mode: manner.mode,
        needs_x: manner.needs_x,
        list: List::default(),
    };
    Walked {
        end: walk.whole(),
        list: walk.list,
    }
}

/// A refused translation: its list is empty.
fn refused(refusal: Refusal) -> Translation {
    Translation {
        answer: Answer::Refused(refusal.number()),
        list: List::default(),
        why: None,
        refusal: Some(refusal),
    }
}

/// "Effective mode: the hart's, but in M with MPRV=1 a load or store uses MPP, and MPV if MPP isn't 3."
pub fn effective_mode(hart: &Hart, mode: Mode, kind: Kind) -> Mode {
    let uses_mpp = mode == Mode::M && bit(hart.mstatus, MPRV) && kind != Kind::Fetch;
    if uses_mpp {
        Mode::from_mpp(mpp(hart.mstatus), bit(hart.mstatus, MPV))
    } else {
        mode
    }
}

/// "Sv39: bits 63:39 equal bit 38"; "Address checks become 48 or 57 bits first stage" (2026-05): how many bits tables of so many
/// levels translate at the first stage.
pub fn first_stage_bits(levels: u64) -> u32 {
    match levels {
        3 => 39,
        4 => 48,
        _ => 57,
    }
}

/// "Sv39x4: bits 63:41 zero"; "50 or 59 second" (2026-05): the same at the second stage.
pub fn second_stage_bits(levels: u64) -> u32 {
    match levels {
        3 => 41,
        4 => 50,
        _ => 59,
    }
}

/// The first stage's test of an address: those above its low `bits` bits equal the highest of these.
pub fn first_stage_takes(address: u64, bits: u32) -> bool {
    let copies = 65 - bits;
    let high = field(address, bits - 1, copies);
    high == 0 || high == low_ones(copies)
}

/// The second stage's test of an address: those above its low `bits` bits are zero.
pub fn second_stage_takes(address: GuestPhysical, bits: u32) -> bool {
    field(address.0, bits, 64 - bits) == 0
}

/// "It starts at its top level, 2 here", with three levels; 3 with four, 4 with five.
pub(crate) fn top_level(levels: u64) -> u64 {
    levels - 1
}

/// "12 + 9 times the level": the low bits of an address that a leaf of this level leaves as they are.
fn offset_bits(level: u64) -> u32 {
    match level {
        0 => 12,
        1 => 21,
        2 => 30,
        3 => 39,
        _ => 48,
    }
}

/// "the address's nine bits from bit 12 + 9 times the level up".
pub(crate) fn first_stage_index(address: u64, level: u64) -> u64 {
    field(address, offset_bits(level), 9)
}

/// The same, "eleven at the second stage's root", which is the table of the top level.
pub(crate) fn second_stage_index(address: GuestPhysical, level: u64, levels: u64) -> u64 {
    let width = if level == top_level(levels) { 11 } else { 9 };
    field(address.0, offset_bits(level), width)
}

/// "with the table at its register's PPN times 4096".
pub(crate) fn root_table(atp: u64) -> u64 {
    atp_ppn(atp) << 12
}

/// Entry bit V.
const PTE_V: u32 = 0;
/// Entry bit R.
const PTE_R: u32 = 1;
/// Entry bit W.
const PTE_W: u32 = 2;
/// Entry bit X.
const PTE_X: u32 = 3;
/// Entry bit U.
const PTE_U: u32 = 4;
/// Entry bit A.
const PTE_A: u32 = 6;
/// Entry bit D.
const PTE_D: u32 = 7;

/// "the entry's PPN (bits 53:10)".
fn entry_ppn(entry: u64) -> u64 {
    field(entry, 10, 44)
}

/// What an entry is, by the rules that do not depend on the access.
#[derive(Clone, Copy, PartialEq, Eq, Debug)]
pub(crate) enum Entry {
    /// A pointer to the table at this address, of this level.
    Pointer { level: u64, table: u64 },
    /// A leaf with this PPN.
    Leaf { ppn: u64 },
}

/// "Both stages fault on: V=0; W without R; any of bits 63:54; a pointer with A, D or U; a pointer at level 0; a large leaf
/// with nonzero low PPN". "An entry with neither R nor X is a pointer [...]. Any other is a leaf".
fn decode(entry: u64, level: u64) -> Result<Entry, Rule> {
    if !bit(entry, PTE_V) {
        return Err(Rule::NotValid);
    }
    if bit(entry, PTE_W) && !bit(entry, PTE_R) {
        return Err(Rule::WriteWithoutRead);
    }
    if field(entry, 54, 10) != 0 {
        return Err(Rule::ReservedBits);
    }
    let is_pointer = !bit(entry, PTE_R) && !bit(entry, PTE_X);
    if is_pointer {
        decode_pointer(entry, level)
    } else {
        decode_leaf(entry, level)
    }
}

/// "the level falls by one, and the table is at the entry's PPN (bits 53:10) times 4096."
fn decode_pointer(entry: u64, level: u64) -> Result<Entry, Rule> {
    if bit(entry, PTE_A) {
        return Err(Rule::PointerWithA);
    }
    if bit(entry, PTE_D) {
        return Err(Rule::PointerWithD);
    }
    if bit(entry, PTE_U) {
        return Err(Rule::PointerWithU);
    }
    let Some(next) = level.checked_sub(1) else {
        return Err(Rule::PointerAtLevelZero);
    };
    Ok(Entry::Pointer {
        level: next,
        table: entry_ppn(entry) << 12,
    })
}

/// A leaf whose low PPN bits are zero where its page is larger than 4096 bytes.
fn decode_leaf(entry: u64, level: u64) -> Result<Entry, Rule> {
    let ppn = entry_ppn(entry);
    let low_ppn = ppn & low_ones(offset_bits(level) - 12);
    if low_ppn != 0 {
        return Err(Rule::LargeLeafLowPpn);
    }
    Ok(Entry::Leaf { ppn })
}

/// "the stage yields that PPN times 4096, with the low 12 + 9 times the level bits taken from its address."
pub(crate) fn leaf_result(ppn: u64, address: u64, level: u64) -> u64 {
    let from_address = low_ones(offset_bits(level));
    ((ppn << 12) & !from_address) | (address & from_address)
}

/// "at a leaf only: A=0; a store with D=0".
fn accessed_and_dirty(entry: u64, is_store: bool) -> Result<(), Rule> {
    if !bit(entry, PTE_A) {
        return Err(Rule::NotAccessed);
    }
    if is_store && !bit(entry, PTE_D) {
        return Err(Rule::NotDirty);
    }
    Ok(())
}

/// "Loads need R, or X with MXR; stores need W, fetches X."
fn right_of_kind(entry: u64, kind: Kind, mxr: bool) -> Result<(), Rule> {
    let readable = bit(entry, PTE_R) || (mxr && bit(entry, PTE_X));
    match kind {
        Kind::Load if !readable => Err(Rule::NotReadable),
        Kind::Store if !bit(entry, PTE_W) => Err(Rule::NotWritable),
        Kind::Fetch if !bit(entry, PTE_X) => Err(Rule::NotExecutable),
        _ => Ok(()),
    }
}

/// What the second stage translates an address for.
#[derive(Clone, Copy, PartialEq, Eq, Debug)]
pub enum Purpose {
    /// A guest entry that the hart is about to read.
    GuestEntry,
    /// The access itself.
    Access,
}

impl Purpose {
    /// For a guest entry "instruction word 00003000 hex". "Other [...] words are 0."
    fn word(self) -> u64 {
        match self {
            Purpose::GuestEntry => 0x3000,
            Purpose::Access => 0,
        }
    }
}

/// A stage, and what it translates.
#[derive(Clone, Copy, PartialEq, Eq, Debug)]
pub(crate) enum Stage {
    /// The first stage: the access's own address.
    First,
    /// The second stage: this address, for this purpose.
    Second(GuestPhysical, Purpose),
}

impl Stage {
    /// "stage (1 first, 2 second)".
    fn number(self) -> u64 {
        match self {
            Stage::First => 1,
            Stage::Second(..) => 2,
        }
    }

    /// What the second stage is on the way to.
    fn guest(self) -> Option<GuestPhysical> {
        match self {
            Stage::First => None,
            Stage::Second(guest, _) => Some(guest),
        }
    }
}

/// "Any fault, of either stage, ends the walk and is its answer."
#[derive(Clone, Copy, PartialEq, Eq, Debug)]
pub struct Fault {
    /// The five numbers of the fault.
    pub trap: Trap,
    /// The rule that held.
    pub why: Why,
}

/// One walk. "It is fed the hart, the image and the access"; "It holds the list so far".
pub(crate) struct Walk<'a> {
    pub(crate) hart: &'a Hart,
    pub(crate) image: &'a Image,
    pub(crate) access: &'a Access,
    /// The effective mode.
    pub(crate) mode: Mode,
    /// Whether it is HLVX.
    pub(crate) needs_x: bool,
    pub(crate) list: List,
}

impl Walk<'_> {
    /// The whole walk of an access that is not refused.
    fn whole(&mut self) -> Result<Machine, Fault> {
        self.alignment()?;
        let machine = match self.mode {
            // "M, or stages in Bare, pass the address on."
            Mode::M => Machine(self.access.address),
            // "V=0 walks satp alone".
            Mode::U | Mode::Hs => Machine(self.first_stage(self.hart.satp)?),
            // "V=1 walks vsatp, then hgatp."
            Mode::Vu | Mode::Vs => {
                let guest = GuestPhysical(self.first_stage(self.hart.vsatp)?);
                self.second_stage(guest, Purpose::Access)?
            }
        };
        self.whole_access_in_image(machine)?;
        Ok(machine)
    }

    /// "Misaligned load or store: 4 or 6, before all else." A misaligned fetch was refused.
    pub(crate) fn alignment(&self) -> Result<(), Fault> {
        if !self.access.is_misaligned() {
            return Ok(());
        }
        let cause = match self.access.kind {
            Kind::Fetch => 0,
            Kind::Load => 4,
            Kind::Store => 6,
        };
        let why = self.why_of_access(Rule::Misaligned, self.access.address);
        Err(self.fault(cause, 0, 0, why))
    }

    /// "At the end the whole access must lie in the image, else 1, 5, 7."
    pub(crate) fn whole_access_in_image(&self, machine: Machine) -> Result<(), Fault> {
        if self.image.holds(machine, self.access.width) {
            return Ok(());
        }
        Err(self.access_fault(self.why_of_access(Rule::AccessOutside, machine.0)))
    }

    // Faults. "The value is the virtual address; the flag is the effective V."

    fn fault(&self, cause: u64, second: u64, word: u64, why: Why) -> Fault {
        Fault {
            trap: Trap {
                cause,
                value: self.access.address,
                second,
                word,
                flag: self.mode.v(),
            },
            why,
        }
    }

    /// A rule about the access itself.
    fn why_of_access(&self, rule: Rule, address: u64) -> Why {
        Why {
            rule,
            part: Part::Access,
            level: None,
            address,
            width: self.access.width,
            guest: None,
        }
    }

    /// A rule about what a stage translates.
    pub(crate) fn why_of_stage(&self, rule: Rule, stage: Stage, address: u64) -> Why {
        Why {
            part: self.part(stage),
            guest: stage.guest(),
            ..self.why_of_access(rule, address)
        }
    }

    /// A rule about an entry of a stage.
    pub(crate) fn why_of_entry(&self, rule: Rule, stage: Stage, level: u64, place: Machine) -> Why {
        Why {
            level: Some(level),
            ..self.why_of_stage(rule, stage, place.0)
        }
    }

    /// The part of the walk that a stage is.
    fn part(&self, stage: Stage) -> Part {
        match stage {
            Stage::First if self.mode.v() => Part::Vsatp,
            Stage::First => Part::Satp,
            Stage::Second(_, Purpose::GuestEntry) => Part::HgatpForEntry,
            Stage::Second(_, Purpose::Access) => Part::HgatpForAccess,
        }
    }

    /// "access fault 1, 5, 7 by the original access".
    pub(crate) fn access_fault(&self, why: Why) -> Fault {
        self.fault(self.access.kind.access_fault(), 0, 0, why)
    }

    /// "page fault 12, 13, 15 (fetch, load, store)".
    pub(crate) fn page_fault(&self, why: Why) -> Fault {
        self.fault(self.access.kind.page_fault(), 0, 0, why)
    }

    /// "guest-page fault 20, 21, 23", for a guest entry too: "The manual raises the fault of the original access: 20, 21 or 23. [...]
    /// Value, second value and instruction word stay." (2026-04) "Every guest-page fault's second value is the guest physical
    /// address shifted right by 2."
    pub(crate) fn guest_page_fault(
        &self,
        guest: GuestPhysical,
        purpose: Purpose,
        why: Why,
    ) -> Fault {
        let cause = self.access.kind.guest_page_fault();
        let second = guest.0 >> 2;
        self.fault(cause, second, purpose.word(), why)
    }

    /// "An entry in the image is read, eight bytes, and listed"; "An entry outside the image: access fault"; "A read outside
    /// the image isn't listed."
    pub(crate) fn read_entry(
        &mut self,
        stage: Stage,
        level: u64,
        place: Machine,
    ) -> Result<u64, Fault> {
        let Some(value) = self.image.read(place) else {
            let why = self.why_of_entry(Rule::EntryOutside, stage, level, place);
            return Err(self.access_fault(why));
        };
        self.list.push(Read {
            stage: stage.number(),
            level,
            address: place.0,
            value,
        });
        Ok(value)
    }

    // The first stage.

    /// The first stage of the access's address, by satp or vsatp. Its result is a machine address with V=0 and a guest
    /// physical address with V=1; the caller names it.
    fn first_stage(&mut self, atp: u64) -> Result<u64, Fault> {
        let address = self.access.address;
        let Some(levels) = atp_levels(atp) else {
            return Ok(address);
        };
        let bits = first_stage_bits(levels);
        if !first_stage_takes(address, bits) {
            let why = self.why_of_stage(Rule::HighBits(bits), Stage::First, address);
            return Err(self.page_fault(why));
        }
        let mut level = top_level(levels);
        let mut table = root_table(atp);
        loop {
            let place = table + 8 * first_stage_index(address, level);
            let machine = self.place_of_first_stage_entry(place)?;
            let entry = self.read_entry(Stage::First, level, machine)?;
            match self.first_stage_entry(entry, level) {
                Ok(Entry::Pointer {
                    level: next,
                    table: below,
                }) => {
                    level = next;
                    table = below;
                }
                Ok(Entry::Leaf { ppn }) => return Ok(leaf_result(ppn, address, level)),
                Err(rule) => {
                    let why = self.why_of_entry(rule, Stage::First, level, machine);
                    return Err(self.page_fault(why));
                }
            }
        }
    }

    /// "A guest entry is one of the first stage with effective V=1; with the second stage on, its address goes through that
    /// before the read."
    fn place_of_first_stage_entry(&mut self, place: u64) -> Result<Machine, Fault> {
        if self.mode.v() {
            self.second_stage(GuestPhysical(place), Purpose::GuestEntry)
        } else {
            Ok(Machine(place))
        }
    }

    /// The fault rules for an entry of the first stage.
    pub(crate) fn first_stage_entry(&self, entry: u64, level: u64) -> Result<Entry, Rule> {
        let decoded = decode(entry, level)?;
        if let Entry::Leaf { .. } = decoded {
            accessed_and_dirty(entry, self.access.kind == Kind::Store)?;
            self.first_stage_user(entry)?;
            self.right_of_access(entry, self.first_stage_mxr())?;
        }
        Ok(decoded)
    }

    /// The right that the access itself needs: that of its kind, but "HLVX needs X in place of R at both stages", whatever MXR is.
    fn right_of_access(&self, entry: u64, mxr: bool) -> Result<(), Rule> {
        if !self.needs_x {
            return right_of_kind(entry, self.access.kind, mxr);
        }
        if !bit(entry, PTE_X) {
            return Err(Rule::NotExecutableForHlvx);
        }
        Ok(())
    }

    /// "user mode needs U=1; supervisor on a U=1 page may not fetch, and needs SUM for data."
    fn first_stage_user(&self, entry: u64) -> Result<(), Rule> {
        let user_page = bit(entry, PTE_U);
        let supervisor = self.mode.privilege() == 1;
        if !supervisor && !user_page {
            return Err(Rule::NotUser);
        }
        if supervisor && user_page {
            if self.access.kind == Kind::Fetch {
                return Err(Rule::SupervisorFetch);
            }
            if !self.sum() {
                return Err(Rule::SupervisorNeedsSum);
            }
        }
        Ok(())
    }

    /// "SUM [is] vsstatus's when V=1".
    fn sum(&self) -> bool {
        if self.mode.v() {
            bit(self.hart.vsstatus, SUM)
        } else {
            bit(self.hart.mstatus, SUM)
        }
    }

    /// "MXR [is] vsstatus's when V=1, and mstatus.MXR counts too."
    fn first_stage_mxr(&self) -> bool {
        let guest = self.mode.v() && bit(self.hart.vsstatus, MXR);
        guest || bit(self.hart.mstatus, MXR)
    }

    // The second stage.

    /// The second stage, by hgatp: it alone turns a guest physical address into a machine address.
    fn second_stage(&mut self, guest: GuestPhysical, purpose: Purpose) -> Result<Machine, Fault> {
        let hgatp = self.hart.hgatp;
        let stage = Stage::Second(guest, purpose);
        let Some(levels) = atp_levels(hgatp) else {
            return Ok(Machine(guest.0));
        };
        let bits = second_stage_bits(levels);
        if !second_stage_takes(guest, bits) {
            let why = self.why_of_stage(Rule::HighBits(bits), stage, guest.0);
            return Err(self.guest_page_fault(guest, purpose, why));
        }
        let mut level = top_level(levels);
        let mut table = root_table(hgatp);
        loop {
            let place = Machine(table + 8 * second_stage_index(guest, level, levels));
            let entry = self.read_entry(stage, level, place)?;
            match self.second_stage_entry(entry, level, purpose) {
                Ok(Entry::Pointer {
                    level: next,
                    table: below,
                }) => {
                    level = next;
                    table = below;
                }
                Ok(Entry::Leaf { ppn }) => return Ok(Machine(leaf_result(ppn, guest.0, level))),
                Err(rule) => {
                    let why = self.why_of_entry(rule, stage, level, place);
                    return Err(self.guest_page_fault(guest, purpose, why));
                }
            }
        }
    }

    /// The fault rules for an entry of the second stage. "Second stage: always U=1; MXR is mstatus's only. The hart's reads of
    /// guest entries go through the second stage as reads, need R, and MXR doesn't help." Such a read is no store.
    pub(crate) fn second_stage_entry(
        &self,
        entry: u64,
        level: u64,
        purpose: Purpose,
    ) -> Result<Entry, Rule> {
        let decoded = decode(entry, level)?;
        if let Entry::Leaf { .. } = decoded {
            let is_store = purpose == Purpose::Access && self.access.kind == Kind::Store;
            accessed_and_dirty(entry, is_store)?;
            if !bit(entry, PTE_U) {
                return Err(Rule::NotUser);
            }
            match purpose {
                Purpose::GuestEntry => right_of_kind(entry, Kind::Load, false)?,
                Purpose::Access => self.right_of_access(entry, bit(self.hart.mstatus, MXR))?,
            }
        }
        Ok(decoded)
    }
}

#[cfg(test)]
#[path = "walk_tests.rs"]
pub(crate) mod tests;
