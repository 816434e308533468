//! Harts, images and accesses: walks of 0, 3 and 15 reads, walks that end with a fault, and a hart that is refused; then walks through
//! tables of four and five levels, of 23, 24 and 35 reads.

use crate::call::{self, HartWords};
use balcumentri::{Access, Answer, Hart, Image, Kind};
use compare::rng::Rng;
use std::fmt;

/// What is translated in one case: these accesses, on one hart and one image.
pub struct Case {
    /// Its name, for people.
    pub name: &'static str,
    /// How many entries each access reads.
    pub reads: usize,
    /// What each access comes to.
    pub outcome: Outcome,
    /// The hart.
    pub hart: Hart,
    /// Its words.
    pub words: HartWords,
    /// The accesses, in the order of their translation.
    pub accesses: Vec<Access>,
    bytes: Vec<u8>,
}

impl Case {
    /// The image.
    pub fn image(&self) -> Image<'_> {
        Image {
            base: BASE,
            bytes: &self.bytes,
        }
    }
}

/// What the accesses of a case come to.
#[derive(Clone, Copy, Debug, PartialEq, Eq)]
pub enum Outcome {
    /// A machine address.
    Address,
    /// A fault: the causes of a fetch, a load and a store, and the instruction word.
    Fault([u64; 3], u64),
    /// A refusal with this number.
    Refused(u64),
}

impl Outcome {
    /// Whether an access of this kind came to that.
    pub fn is(self, kind: Kind, answer: Answer) -> bool {
        match (self, answer) {
            (Outcome::Address, Answer::Address(_)) => true,
            (Outcome::Fault(causes, word), Answer::Fault(fault)) => {
                (fault.cause, fault.word) == (causes[kind as usize], word)
            }
            (Outcome::Refused(number), Answer::Refused(answered)) => answered == number,
            _ => false,
        }
    }
}

/// Short: "address", the causes, "refused".
impl fmt::Display for Outcome {
    fn fmt(&self, formatter: &mut fmt::Formatter<'_>) -> fmt::Result {
        match self {
            Outcome::Address => formatter.pad("address"),
            Outcome::Fault([fetch, load, store], _) if fetch == load && load == store => {
                formatter.pad(&load.to_string())
            }
            Outcome::Fault([fetch, load, store], _) => {
                formatter.pad(&format!("{fetch}/{load}/{store}"))
            }
            Outcome::Refused(_) => formatter.pad("refused"),
        }
    }
}

const PAGE: Outcome = Outcome::Fault([12, 13, 15], 0);
const GUEST_PAGE: Outcome = Outcome::Fault([20, 21, 23], 0);
/// A guest-page fault for an entry of the first stage.
const ENTRY: Outcome = Outcome::Fault([20, 21, 23], 0x3000);
/// A misaligned load, in the cases where all accesses are loads.
const MISALIGNED: Outcome = Outcome::Fault([4; 3], 0);

/// How a case is made.
struct Plan {
    name: &'static str,
    mode: Mode,
    stages: Stages,
    flaw: Flaw,
    reads: usize,
    outcome: Outcome,
}

/// V and the privilege.
type Mode = (u64, u64);
const M: Mode = (0, 3);
const HS: Mode = (0, 1);
const U: Mode = (0, 0);
const VS: Mode = (1, 1);
const VU: Mode = (1, 0);

/// How many levels the first stage's tables have, and how many the second one's: none where it is off.
type Stages = (u64, u64);
const OFF: Stages = (0, 0);
const FIRST: Stages = (3, 0);
const SECOND: Stages = (0, 3);
const BOTH: Stages = (3, 3);

/// What is wrong in a case. A user on pages of a supervisor faults without it.
#[derive(Clone, Copy, PartialEq, Eq)]
enum Flaw {
    Nothing,
    /// The second stage's leaves of the pages have no U.
    Pages,
    /// The second stage's leaves of the first stage's tables have no U, but for the root's.
    Tables,
    /// Bit 38 of an address differs from the bits above.
    HighBits,
    /// All accesses are loads, one byte off.
    Misaligned,
    /// A register holds what it can't.
    Register,
}

/// The cases: no stage on, one alone, both; then faults, and a hart that is refused; then deeper tables.
const PLANS: [Plan; 16] = {
    use Flaw::{HighBits, Misaligned, Nothing, Pages, Register, Tables};
    use Outcome::{Address, Refused};
    [
        plan("M, no translation", M, OFF, Nothing, 0, Address),
        plan("HS, satp Bare", HS, OFF, Nothing, 0, Address),
        plan("VS, both Bare", VS, OFF, Nothing, 0, Address),
        plan("HS, satp Sv39", HS, FIRST, Nothing, 3, Address),
        plan("VS, hgatp Sv39x4", VS, SECOND, Nothing, 3, Address),
        plan("VS, both stages", VS, BOTH, Nothing, 15, Address),
        plan("U, page without U", U, FIRST, Nothing, 3, PAGE),
        plan("VS, guest page without U", VS, SECOND, Pages, 3, GUEST_PAGE),
        plan("VS, guest table without U", VS, BOTH, Tables, 7, ENTRY),
        plan("VU, both, page without U", VU, BOTH, Nothing, 12, PAGE),
        plan("HS, high bits differ", HS, FIRST, HighBits, 0, PAGE),
        plan("HS, misaligned load", HS, FIRST, Misaligned, 0, MISALIGNED),
        plan("M, register out of range", M, OFF, Register, 0, Refused(2)),
        plan("VS, Sv39 over Sv57x4", VS, (3, 5), Nothing, 23, Address),
        plan("VS, Sv48 over Sv48x4", VS, (4, 4), Nothing, 24, Address),
        plan("VS, Sv57 over Sv57x4", VS, (5, 5), Nothing, 35, Address),
    ]
};

const fn plan(
    name: &'static str,
    mode: Mode,
    stages: Stages,
    flaw: Flaw,
    reads: usize,
    outcome: Outcome,
) -> Plan {
    Plan {
        name,
        mode,
        stages,
        flaw,
        reads,
        outcome,
    }
}

const BASE: u64 = 0x8000_0000;
/// The pages that the accesses touch.
const PAGES: u64 = 1024;
/// The accesses of a case.
const ACCESSES: u64 = 4096;
/// The image: the pages and the tables of both stages.
const IMAGE: u64 = (PAGES + 256) * 4096;

const SATP: u64 = 0x180;
const VSATP: u64 = 0x280;
const MEPC: u64 = 0x341;
const HGATP: u64 = 0x680;

/// A pointer: V.
const POINTER: u64 = 0x01;
/// A leaf with all rights for a supervisor: V, R, W, X, A, D.
const SUPERVISOR: u64 = 0xcf;
/// A leaf of the second stage, or for a user: these and U.
const USER: u64 = 0xdf;

/// All cases.
pub fn cases() -> Vec<Case> {
    PLANS.iter().map(made).collect()
}

/// The case at a place among all.
pub fn case(place: usize) -> Option<Case> {
    PLANS.get(place).map(made)
}

fn made(plan: &Plan) -> Case {
    let (v, privilege) = plan.mode;
    let (first, second) = plan.stages;
    let leaf = |flaw| if plan.flaw == flaw { SUPERVISOR } else { USER };
    let mut memory = Memory::new(second, leaf(Flaw::Tables));
    let root = memory.guest_page(USER);
    // The pages at addresses of four top-level entries, eight tables of level 0 each.
    let mut rng = Rng::new(1);
    let pages: Vec<u64> = (0..PAGES)
        .map(|page| {
            let physical = memory.guest_page(leaf(Flaw::Pages));
            if first == 0 {
                return physical;
            }
            let address = spread(page, first) | rng.below(4) << 19;
            memory.map_first(root, first, address, physical);
            address
        })
        .collect();
    let mut hart = Hart::new(v, privilege, 0x1000);
    let mut hold = |number, value| assert!(hart.put_register(number, value));
    if first > 0 {
        hold(if v == 1 { VSATP } else { SATP }, tables(first, root));
    }
    if second > 0 {
        hold(HGATP, tables(second, memory.second_root));
    }
    if plan.flaw == Flaw::Register {
        hold(MEPC, 0b10);
    }
    let accesses = (0..ACCESSES).map(|n| flawed(access(n, &pages, &mut rng), plan.flaw));
    Case {
        name: plan.name,
        reads: plan.reads,
        outcome: plan.outcome,
        words: call::words(&hart),
        hart,
        accesses: accesses.collect(),
        bytes: memory.bytes,
    }
}

/// What satp, vsatp or hgatp holds for tables of so many levels, from a root on.
fn tables(levels: u64, root: u64) -> u64 {
    (levels + 5) << 60 | root >> 12
}

/// A fetch, a load or a store in turn, somewhere in one of the pages.
fn access(n: u64, pages: &[u64], rng: &mut Rng) -> Access {
    let (kind, width) = match n % 3 {
        0 => (Kind::Fetch, 4),
        1 => (Kind::Load, 8),
        _ => (Kind::Store, 8),
    };
    Access {
        kind,
        address: rng.pick(pages) + rng.below(512) * 8,
        width,
    }
}

/// The access with the flaw, if it is one of accesses.
fn flawed(access: Access, flaw: Flaw) -> Access {
    match flaw {
        Flaw::HighBits => Access {
            address: access.address | 1 << 38,
            ..access
        },
        Flaw::Misaligned => Access {
            kind: Kind::Load,
            address: access.address + 1,
            width: 8,
        },
        _ => access,
    }
}

/// An image under construction: its pages are handed out from the first on.
struct Memory {
    bytes: Vec<u8>,
    used: u64,
    /// The levels of the second stage's tables, none where it is off, and their root.
    second: u64,
    second_root: u64,
    /// The second stage's leaf bits of the first stage's tables.
    tables: u64,
    /// With the second stage on: the machine page of each guest page, in the order in which they were handed out.
    guests: Vec<u64>,
}

/// An address's lowest bit that is of its index into a table of a level.
fn shift(level: u64) -> u64 {
    12 + 9 * level
}

/// The address of the page with a number, for tables of so many levels: one of four indexes, the same at each level from 2 up, and one
/// of eight at level 1.
fn spread(number: u64, levels: u64) -> u64 {
    let upper = (2..levels).map(|level| (number % 4) << shift(level));
    upper.sum::<u64>() | (number / 4 % 8) << shift(1) | (number / 32) << shift(0)
}

/// The number of the page at an address that is spread so.
fn number(address: u64) -> u64 {
    (address >> shift(2) & 3) | (address >> shift(1) & 7) << 2 | (address >> shift(0) & 511) << 5
}

impl Memory {
    fn new(second: u64, tables: u64) -> Memory {
        let mut memory = Memory {
            bytes: vec![0; IMAGE as usize],
            used: 0,
            second,
            second_root: 0,
            tables,
            guests: Vec::new(),
        };
        // first, so that the 16 KiB stand at a multiple of 16 KiB
        if second > 0 {
            memory.second_root = memory.pages(4);
        }
        memory
    }

    /// New pages: the machine address of the first.
    fn pages(&mut self, count: u64) -> u64 {
        let at = BASE + self.used * 4096;
        self.used += count;
        at
    }

    /// A new page at a guest physical address, by a leaf with these bits. Where the second stage is off, that is a machine address.
    fn guest_page(&mut self, leaf: u64) -> u64 {
        let machine = self.pages(1);
        if self.second == 0 {
            return machine;
        }
        let guest = spread(self.guests.len() as u64, self.second);
        self.guests.push(machine);
        let mut entry = self.second_root + 8 * (guest >> shift(self.second - 1));
        for level in (0..self.second - 1).rev() {
            entry = self.table(entry, Memory::new_table) + 8 * (guest >> shift(level) & 511);
        }
        self.put(entry, machine >> 2 | leaf);
        guest
    }

    /// Maps a 4 KiB page in the first stage, whose tables have so many levels.
    fn map_first(&mut self, root: u64, levels: u64, address: u64, physical: u64) {
        let mut entry = self.machine(root + 8 * (address >> shift(levels - 1) & 511));
        for level in (0..levels - 1).rev() {
            let table = self.table(entry, Memory::guest_table);
            entry = self.machine(table + 8 * (address >> shift(level) & 511));
        }
        self.put(entry, physical >> 2 | SUPERVISOR);
    }

    /// A new table of the first stage.
    fn guest_table(&mut self) -> u64 {
        self.guest_page(self.tables)
    }

    /// A new table of the second stage.
    fn new_table(&mut self) -> u64 {
        self.pages(1)
    }

    /// The table that the entry at a machine address points to, made where there is none.
    fn table(&mut self, entry: u64, make: fn(&mut Memory) -> u64) -> u64 {
        if self.get(entry) == 0 {
            let table = make(self);
            self.put(entry, table >> 2 | POINTER);
        }
        (self.get(entry) & !0x3ff) << 2
    }

    /// The machine address of a guest physical one.
    fn machine(&self, address: u64) -> u64 {
        match self.second {
            0 => address,
            _ => self.guests[number(address) as usize] + address % 4096,
        }
    }

    fn get(&self, address: u64) -> u64 {
        let at = (address - BASE) as usize;
        let mut eight = [0; 8];
        eight.copy_from_slice(&self.bytes[at..at + 8]);
        u64::from_le_bytes(eight)
    }

    fn put(&mut self, address: u64, value: u64) {
        let at = (address - BASE) as usize;
        self.bytes[at..at + 8].copy_from_slice(&value.to_le_bytes());
    }
}
