//! Tests of the walk: each refusal, each fault rule at each stage and level, the rights, MPRV, and the known replays.

use super::*;
use crate::bits::with_bit;
use crate::registers::with_mpp;

pub(crate) const V: u64 = 1 << PTE_V;
pub(crate) const R: u64 = 1 << PTE_R;
pub(crate) const W: u64 = 1 << PTE_W;
pub(crate) const X: u64 = 1 << PTE_X;
pub(crate) const U: u64 = 1 << PTE_U;
pub(crate) const A: u64 = 1 << PTE_A;
pub(crate) const D: u64 = 1 << PTE_D;
pub(crate) const ALL_RIGHTS: u64 = V | R | W | X | U | A | D;

pub(crate) const BASE: u64 = 0x8000_0000;
pub(crate) const LENGTH: usize = 0x1_0000;
/// With three levels and small leaves guest physical address GUEST + offset is machine address BASE + offset.
pub(crate) const GUEST: u64 = 0x1_4000_0000;
/// With three levels and small leaves virtual address VIRTUAL + offset is guest physical address GUEST + offset, or machine address
/// BASE + offset with V=0.
pub(crate) const VIRTUAL: u64 = 0x4000_0000;
/// Offsets of the tables and of a page of data.
const SECOND_ROOT: u64 = 0;
pub(crate) const SECOND_1: u64 = 0x4000;
pub(crate) const SECOND_0: u64 = 0x5000;
pub(crate) const FIRST_ROOT: u64 = 0x6000;
pub(crate) const FIRST_1: u64 = 0x7000;
pub(crate) const FIRST_0: u64 = 0x8000;
pub(crate) const DATA: u64 = 0x9000;

pub(crate) fn entry(target: u64, flags: u64) -> u64 {
    ((target >> 12) << 10) | flags
}

/// "12 + 9 times the level".
fn low_bits(level: u64) -> u64 {
    12 + 9 * level
}

/// The offsets of a stage's tables: the root, and those of levels 0 to 3.
struct Places {
    root: u64,
    below: [u64; 4],
}

const FIRST: Places = Places {
    root: FIRST_ROOT,
    below: [FIRST_0, FIRST_1, 0xa000, 0xb000],
};
const SECOND: Places = Places {
    root: SECOND_ROOT,
    below: [SECOND_0, SECOND_1, 0xc000, 0xd000],
};

impl Places {
    /// The offset of the table of a level.
    fn table(&self, tables: Tables, level: u64) -> u64 {
        if level == tables.top() {
            self.root
        } else {
            self.below[level as usize]
        }
    }

    /// The offset of the entry for an address in the table of a level. (No index here is over 511.)
    fn entry(&self, tables: Tables, level: u64, address: u64) -> u64 {
        self.table(tables, level) + 8 * ((address >> low_bits(level)) & 0x1ff)
    }
}

/// The tables of a stage: how many levels they have, and the level of their leaves.
#[derive(Clone, Copy, PartialEq, Eq, Debug)]
pub(crate) struct Tables {
    levels: u64,
    leaf: u64,
}

/// Tables of three levels.
fn sv39(leaf: u64) -> Option<Tables> {
    Some(Tables { levels: 3, leaf })
}

/// Tables of so many levels whose leaves are of 4096 bytes.
pub(crate) fn deepest(levels: u64) -> Tables {
    Tables { levels, leaf: 0 }
}

/// How many levels tables can have.
const DEPTHS: [u64; 3] = [3, 4, 5];

impl Tables {
    /// Every depth with every level of leaves.
    pub(crate) fn all() -> impl Iterator<Item = Tables> {
        let of_depth = |levels| (0..levels).map(move |leaf| Tables { levels, leaf });
        DEPTHS.into_iter().flat_map(of_depth)
    }

    fn top(self) -> u64 {
        self.levels - 1
    }

    /// The register for a root: MODE 8, 9 or 10.
    fn atp(self, root: u64) -> u64 {
        ((self.levels + 5) << 60) | (root >> 12)
    }

    /// The levels of the entries that a walk reads.
    fn walked(self) -> std::ops::Range<u64> {
        self.leaf..self.levels
    }

    /// An address that leads to `target`, the first byte of the image: its index at the root is this one; between the root and level 1
    /// each level has another; a leaf's low bits are the target's.
    fn address(self, top: u64, target: u64) -> u64 {
        let between = (2..self.top()).map(|level| (level + 1) << low_bits(level));
        let own = between.fold(top << low_bits(self.top()), |address, index| {
            address | index
        });
        let kept = (1 << low_bits(self.leaf)) - 1;
        (own & !kept) | (target & kept)
    }
}

/// A hart and an image of 64 KiB with the tables of both stages.
#[derive(Clone)]
pub(crate) struct World {
    pub(crate) hart: Hart,
    pub(crate) image: Image,
    first: Option<Tables>,
    second: Option<Tables>,
}

impl World {
    /// The tables of both stages; none is Bare. With V=1 both are used, with V=0 the first stage alone.
    pub(crate) fn new(mode: Mode, first: Option<Tables>, second: Option<Tables>) -> World {
        let mut world = World {
            hart: Hart::new(0, 0, 0).in_mode(mode),
            image: Image {
                base: BASE,
                bytes: vec![0; LENGTH],
            },
            first,
            second,
        };
        if let Some(tables) = second {
            world.hart.hgatp = tables.atp(BASE + SECOND_ROOT);
            world.put_tables(tables, &SECOND, world.guest(), BASE);
        }
        if let Some(tables) = first {
            let target = world.target();
            world.put_tables(tables, &FIRST, world.virtual_address(), target);
            let atp = tables.atp(target + FIRST_ROOT);
            if mode.v() {
                world.hart.vsatp = atp;
            } else {
                world.hart.satp = atp;
            }
        }
        world
    }

    fn put(&mut self, offset: u64, value: u64) {
        assert!(self.image.put(Machine(BASE + offset), value));
    }

    /// Pointers and leaves that lead from an address to the image, whose first byte the stage yields as `target`.
    fn put_tables(&mut self, tables: Tables, places: &Places, address: u64, target: u64) {
        for level in tables.leaf + 1..tables.levels {
            let below = places.table(tables, level - 1);
            let place = places.entry(tables, level, address);
            self.put(place, entry(target + below, V));
        }
        let leaf = places.entry(tables, tables.leaf, address);
        let start = target & !((1 << low_bits(tables.leaf)) - 1);
        let pages = if tables.leaf == 0 { 16 } else { 1 };
        for page in 0..pages {
            self.put(leaf + 8 * page, entry(start + (page << 12), ALL_RIGHTS));
        }
    }

    /// What the first stage yields for the image's first byte.
    fn target(&self) -> u64 {
        let mode = self.hart.checked_mode().unwrap();
        if mode.v() && self.second.is_some() {
            self.guest()
        } else {
            BASE
        }
    }

    /// The guest physical address of the image's first byte.
    fn guest(&self) -> u64 {
        self.second.map_or(BASE, |tables| tables.address(5, BASE))
    }

    /// The virtual address of the image's first byte.
    pub(crate) fn virtual_address(&self) -> u64 {
        let target = self.target();
        self.first
            .map_or(target, |tables| tables.address(1, target))
    }

    fn run(&self, kind: Kind, address: u64, width: u64) -> Translation {
        let access = Access {
            kind,
            address,
            width,
        };
        translate(&self.hart, &self.image, &access)
    }

    /// The access that the tables are made for.
    fn access(&self, kind: Kind) -> Translation {
        self.run(kind, self.virtual_address() + DATA, 4)
    }

    /// What the image has at an offset, as an item of the list.
    fn item(&self, stage: u64, level: u64, offset: u64) -> Read {
        let address = BASE + offset;
        Read {
            stage,
            level,
            address,
            value: self.image.read(Machine(address)).unwrap(),
        }
    }

    /// The items of the second stage's walk for the page at an offset; none where it is Bare.
    fn second_items(&self, offset: u64) -> Vec<Read> {
        let Some(tables) = self.second else {
            return Vec::new();
        };
        let address = self.guest() + offset;
        let item = |level| self.item(2, level, SECOND.entry(tables, level, address));
        tables.walked().rev().map(item).collect()
    }

    /// The whole list of the access, with V=1.
    pub(crate) fn items(&self) -> Vec<Read> {
        let mut items = Vec::new();
        if let Some(tables) = self.first {
            for level in tables.walked().rev() {
                let place = FIRST.entry(tables, level, self.virtual_address() + DATA);
                items.extend(self.second_items(place));
                items.push(self.item(1, level, place));
            }
        }
        items.extend(self.second_items(DATA));
        items
    }
}

pub(crate) const KINDS: [Kind; 3] = [Kind::Fetch, Kind::Load, Kind::Store];

fn fault(translation: &Translation) -> Trap {
    match translation.answer {
        Answer::Fault(trap) => trap,
        other => panic!("no fault but {other:?}"),
    }
}

fn address(translation: &Translation) -> u64 {
    match translation.answer {
        Answer::Address(address) => address.0,
        other => panic!("no address but {other:?} ({:?})", translation.why),
    }
}

fn rule(translation: &Translation) -> Option<Rule> {
    translation.why.map(|why| why.rule)
}

fn refusal(translation: &Translation) -> Option<u64> {
    match translation.answer {
        Answer::Refused(number) => {
            assert_eq!(translation.list, List::default());
            assert_eq!(translation.why, None);
            Some(number)
        }
        _ => None,
    }
}

// Refusals.

#[test]
fn refusal_3_by_width() {
    let world = World::new(Mode::M, None, None);
    for width in (0..20).chain([0x100, 0x101, 1 << 32, (1 << 32) + 4, u64::MAX]) {
        for kind in KINDS {
            let allowed = match kind {
                Kind::Fetch => width == 4,
                _ => matches!(width, 1 | 2 | 4 | 8),
            };
            let translation = world.run(kind, BASE, width);
            assert_eq!(
                refusal(&translation),
                (!allowed).then_some(3),
                "{kind:?} {width:x}"
            );
        }
    }
}

#[test]
fn refusal_3_by_the_address_of_a_fetch() {
    let world = World::new(Mode::M, None, None);
    for offset in 0..9 {
        let translation = world.run(Kind::Fetch, BASE + offset, 4);
        assert_eq!(refusal(&translation), (offset % 4 != 0).then_some(3));
    }
    assert_eq!(refusal(&world.run(Kind::Fetch, u64::MAX, 4)), Some(3));
}

#[test]
fn refusals_come_in_the_order_2_1_3() {
    for bad_hart in [false, true] {
        for bad_image in [false, true] {
            for bad_access in [false, true] {
                let mut world = World::new(Mode::Vs, sv39(0), sv39(0));
                if bad_hart {
                    world.hart.hgatp |= 1;
                }
                if bad_image {
                    world.image.base += 1;
                }
                let width = if bad_access { 3 } else { 8 };
                // Misaligned as well: the refusals come first.
                let translation = world.run(Kind::Load, VIRTUAL + DATA + 1, width);
                let expected = if bad_hart {
                    Some(2)
                } else if bad_image {
                    Some(1)
                } else if bad_access {
                    Some(3)
                } else {
                    None
                };
                assert_eq!(refusal(&translation), expected);
            }
        }
    }
}

// Misalignment.

#[test]
fn misaligned_loads_and_stores_fault_before_all_else() {
    for mode in Mode::ALL {
        let world = World::new(mode, sv39(0), sv39(0));
        for width in [1, 2, 4, 8] {
            for low in 0..8 {
                for (kind, cause) in [(Kind::Load, 4), (Kind::Store, 6)] {
                    // Not well formed for Sv39 either.
                    let virtual_address = (0x1234 << 48) + low;
                    let translation = world.run(kind, virtual_address, width);
                    if low % width == 0 {
                        assert_ne!(rule(&translation), Some(Rule::Misaligned));
                        continue;
                    }
                    assert_eq!(rule(&translation), Some(Rule::Misaligned));
                    assert_eq!(translation.list.count, 0);
                    let expected = Trap {
                        cause,
                        value: virtual_address,
                        second: 0,
                        word: 0,
                        flag: mode.v(),
                    };
                    assert_eq!(fault(&translation), expected);
                }
            }
        }
    }
}

#[test]
fn the_flag_of_a_misaligned_access_is_the_effective_v() {
    let mut world = World::new(Mode::M, None, None);
    world.hart.mstatus |= (1 << MPRV) | (1 << MPV);
    assert!(fault(&world.run(Kind::Load, 1, 8)).flag);
    world.hart.mstatus = with_mpp(world.hart.mstatus, 3);
    assert!(!fault(&world.run(Kind::Load, 1, 8)).flag);
}

// The known replays.

#[test]
fn known_replay_well_formed_addresses() {
    assert!(first_stage_takes(0x3f_ffff_ffff, 39));
    assert!(first_stage_takes(0xffff_ffc0_0000_0000, 39));
    assert!(!first_stage_takes(0x40_0000_0000, 39));
    assert!(second_stage_takes(GuestPhysical(0x1ff_ffff_ffff), 41));
    assert!(!second_stage_takes(GuestPhysical(0x200_0000_0000), 41));
}

/// "Address checks become 48 or 57 bits first stage, 50 or 59 second."
#[test]
fn the_bits_of_each_depth() {
    assert_eq!(DEPTHS.map(first_stage_bits), [39, 48, 57]);
    assert_eq!(DEPTHS.map(second_stage_bits), [41, 50, 59]);
}

#[test]
fn every_high_bit_of_an_address_counts() {
    for bits in [39, 48, 57] {
        let lower_half = (1u64 << (bits - 1)) - 1;
        for address in [0, lower_half] {
            assert!(first_stage_takes(address, bits), "{address:x}");
            assert!(first_stage_takes(!address, bits), "{address:x}");
        }
        for position in 0..64 {
            let takes = position < bits - 1;
            assert_eq!(first_stage_takes(1 << position, bits), takes);
            assert_eq!(first_stage_takes(!(1 << position), bits), takes);
        }
    }
    for bits in [41, 50, 59] {
        assert!(second_stage_takes(GuestPhysical((1 << bits) - 1), bits));
        for position in 0..64 {
            let address = GuestPhysical(1 << position);
            assert_eq!(second_stage_takes(address, bits), position < bits);
        }
    }
}

/// The highest address of each mode is walked, by the last entry of each table; the next one is not. Eleven bits make the index at
/// the second stage's root, nine elsewhere.
#[test]
fn the_highest_address_uses_the_last_entry_of_every_table() {
    for levels in DEPTHS {
        let tables = deepest(levels);
        for (mode, places, number, bits) in [
            (Mode::Hs, &FIRST, 1, 9 * levels + 12),
            (Mode::Vs, &SECOND, 2, 9 * levels + 14),
        ] {
            let mut world = World::new(mode, None, None);
            let root = tables.atp(BASE + places.root);
            match number {
                1 => world.hart.satp = root,
                _ => world.hart.hgatp = root,
            }
            let last = |level| {
                let of_root = number == 2 && level == tables.top();
                places.table(tables, level) + if of_root { 0x3ff8 } else { 0xff8 }
            };
            for level in 1..levels {
                let below = places.table(tables, level - 1);
                world.put(last(level), entry(BASE + below, V));
            }
            let user = if number == 2 { U } else { 0 };
            world.put(last(0), entry(BASE + DATA, (ALL_RIGHTS & !U) | user));
            // With a first stage all ones are the highest address, below which half of the addresses are no addresses.
            let highest = if number == 1 {
                u64::MAX
            } else {
                (1 << bits) - 1
            };
            let translation = world.run(Kind::Load, highest - 7, 8);
            assert_eq!(address(&translation), BASE + DATA + 0xff8);
            let expected: Vec<Read> = (0..levels)
                .rev()
                .map(|level| world.item(number, level, last(level)))
                .collect();
            assert_eq!(translation.list.items(), expected);
        }
    }
}

/// The lowest and the highest address of each half or range are walked, the first beyond is not: by each stage of each depth.
#[test]
fn the_edges_of_each_mode() {
    for levels in DEPTHS {
        let tables = Some(deepest(levels));
        let half = 1u64 << (9 * levels + 11);
        let range = 1u64 << (9 * levels + 14);
        for (mode, first, second, taken, not_taken) in [
            (
                Mode::U,
                tables,
                None,
                [0, half - 8, half.wrapping_neg(), u64::MAX - 7],
                [half, half.wrapping_neg() - 8],
            ),
            (
                Mode::Vu,
                tables,
                sv39(0),
                [0, half - 8, half.wrapping_neg(), u64::MAX - 7],
                [half, half.wrapping_neg() - 8],
            ),
            (
                Mode::Vs,
                None,
                tables,
                [0, 8, range / 2, range - 8],
                [range, u64::MAX - 7],
            ),
        ] {
            let world = World::new(mode, first, second);
            let bits = if first.is_some() {
                9 * levels + 12
            } else {
                9 * levels + 14
            } as u32;
            for kind in [Kind::Load, Kind::Store] {
                for virtual_address in taken {
                    let translation = world.run(kind, virtual_address, 8);
                    assert!(translation.list.count > 0, "{levels} {virtual_address:x}");
                    assert_ne!(rule(&translation), Some(Rule::HighBits(bits)));
                }
                for virtual_address in not_taken {
                    let translation = world.run(kind, virtual_address, 8);
                    assert_eq!(rule(&translation), Some(Rule::HighBits(bits)));
                    assert_eq!(translation.list.count, 0);
                    let guest = if first.is_some() {
                        0
                    } else {
                        virtual_address >> 2
                    };
                    assert_eq!(fault(&translation).second, guest);
                }
            }
        }
    }
}

#[test]
fn known_replay_the_16_kib_root() {
    let world = World::new(Mode::Vs, None, sv39(0));
    let last = world.run(Kind::Load, 0x1ff_ffff_ffff, 1);
    let expected = Read {
        stage: 2,
        level: 2,
        address: BASE + 0x3ff8,
        value: 0,
    };
    assert_eq!(last.list.items(), [expected]);
    let over = world.run(Kind::Load, 0x200_0000_0000, 1);
    assert_eq!(
        fault(&over),
        Trap {
            cause: 21,
            value: 0x200_0000_0000,
            second: 0x80_0000_0000,
            word: 0,
            flag: true
        }
    );
    assert_eq!(over.list.count, 0);
}

fn known_world(leaf: u64) -> World {
    let mut world = World::new(Mode::Vs, None, None);
    world.image.bytes.resize(0x1_1000, 0);
    world.hart.hgatp = (8 << 60) | 0x8_0004;
    world.put(0x4008, 0x2000_2001);
    world.put(0x8000, 0x2000_2401);
    world.put(0x9008, leaf);
    world
}

#[test]
fn known_replay_base_80000000() {
    let translation = known_world(0x2000_40d7).run(Kind::Load, 0x4000_1008, 8);
    assert_eq!(address(&translation), 0x8001_0008);
    let read = |level, address, value| Read {
        stage: 2,
        level,
        address,
        value,
    };
    let mut expected = List::default();
    expected.places[0] = read(2, 0x8000_4008, 0x2000_2001);
    expected.places[1] = read(1, 0x8000_8000, 0x2000_2401);
    expected.places[2] = read(0, 0x8000_9008, 0x2000_40d7);
    expected.count = 3;
    assert_eq!(translation.list, expected);
}

#[test]
fn known_replay_base_80000000_other_leaves() {
    let no_user = known_world(0x2000_40c7).run(Kind::Load, 0x4000_1008, 8);
    assert_eq!(
        fault(&no_user),
        Trap {
            cause: 21,
            value: 0x4000_1008,
            second: 0x1000_0402,
            word: 0,
            flag: true
        }
    );
    assert_eq!(no_user.list.count, 3);
    let clean = known_world(0x2000_4057);
    assert_eq!(address(&clean.run(Kind::Load, 0x4000_1008, 8)), 0x8001_0008);
    let store = clean.run(Kind::Store, 0x4000_1008, 8);
    assert_eq!(fault(&store).cause, 23);
    assert_eq!(fault(&store).second, 0x1000_0402);
}

#[test]
fn known_replay_fifteen_reads_in_64_kib() {
    let world = World::new(Mode::Vu, sv39(0), sv39(0));
    assert_eq!(world.image.bytes.len(), 0x1_0000);
    let translation = world.access(Kind::Load);
    assert_eq!(address(&translation), BASE + DATA);
    let second_for = |page: u64| {
        [
            world.item(2, 2, SECOND_ROOT + 0x28),
            world.item(2, 1, SECOND_1),
            world.item(2, 0, SECOND_0 + 8 * (page >> 12)),
        ]
    };
    let mut expected = Vec::new();
    expected.extend(second_for(FIRST_ROOT));
    expected.push(world.item(1, 2, FIRST_ROOT + 8));
    expected.extend(second_for(FIRST_1));
    expected.push(world.item(1, 1, FIRST_1));
    expected.extend(second_for(FIRST_0));
    expected.push(world.item(1, 0, FIRST_0 + 0x48));
    expected.extend(second_for(DATA));
    assert_eq!(expected.len(), 15);
    assert_eq!(translation.list.items(), expected);
}

// Which stages are walked, and how many entries that reads.

/// "n levels over m levels read at most (n+1)(m+1)-1 entries, so 15, 24, 35. [...] Bare and mixed depths count n or m as 0 or their
/// own depth."
#[test]
fn the_deepest_walk_of_each_pair_of_depths() {
    let choices = [0, 3, 4, 5];
    let mut counts = Vec::new();
    for n in choices {
        for m in choices {
            let [first, second] = [n, m].map(|levels| (levels > 0).then(|| deepest(levels)));
            let world = World::new(Mode::Vu, first, second);
            for kind in KINDS {
                let translation = world.access(kind);
                assert_eq!(address(&translation), BASE + DATA);
                assert_eq!(translation.list.items(), world.items());
                assert_eq!(translation.list.count as u64, (n + 1) * (m + 1) - 1);
            }
            counts.push(world.items().len());
        }
    }
    let expected = [0, 3, 4, 5, 3, 15, 19, 23, 4, 19, 24, 29, 5, 23, 29, 35];
    assert_eq!(counts, expected);
    assert_eq!(counts.into_iter().max(), Some(PLACES));
}

#[test]
fn leaves_at_every_level_of_both_stages() {
    let choices: Vec<Option<Tables>> = Tables::all().map(Some).chain([None]).collect();
    for mode in [Mode::Vs, Mode::Vu] {
        for first in &choices {
            for second in &choices {
                let mut world = World::new(mode, *first, *second);
                if mode == Mode::Vs {
                    world.hart.vsstatus |= 1 << SUM;
                }
                let translation = world.access(Kind::Load);
                assert_eq!(address(&translation), BASE + DATA, "{first:?} {second:?}");
                assert_eq!(translation.list.items(), world.items());
                let reads =
                    |tables: &Option<Tables>| tables.map_or(0, |tables| tables.walked().count());
                let count = reads(first) * (reads(second) + 1) + reads(second);
                assert_eq!(translation.list.count, count);
                let unused = &translation.list.places[translation.list.count..];
                assert!(unused.iter().all(|place| *place == Read::default()));
            }
        }
    }
}

#[test]
fn v_0_walks_satp_alone() {
    for tables in Tables::all() {
        let mut world = World::new(Mode::U, Some(tables), sv39(0));
        // A vsatp that would fault if it were looked at.
        world.hart.vsatp = (8 << 60) | 1;
        let translation = world.access(Kind::Store);
        assert_eq!(address(&translation), BASE + DATA);
        assert_eq!(translation.list.count, tables.walked().count());
        assert!(translation.list.items().iter().all(|read| read.stage == 1));
    }
}

#[test]
fn m_and_bare_pass_all_64_bits() {
    let m = World::new(Mode::M, None, sv39(0));
    let bare = [Mode::U, Mode::Hs, Mode::Vu, Mode::Vs].map(|mode| World::new(mode, None, None));
    let mut worlds = vec![m];
    worlds.extend(bare);
    for world in worlds {
        for kind in KINDS {
            assert_eq!(address(&world.run(kind, BASE + 0xfffc, 4)), BASE + 0xfffc);
            for outside in [0, BASE - 4, BASE + 0x1_0000, (1 << 56) + BASE, u64::MAX - 3] {
                let translation = world.run(kind, outside, 4);
                assert_eq!(rule(&translation), Some(Rule::AccessOutside));
                let expected = Trap {
                    cause: kind.access_fault(),
                    value: outside,
                    second: 0,
                    word: 0,
                    flag: world.hart.v == 1,
                };
                assert_eq!(fault(&translation), expected);
                assert_eq!(translation.list.count, 0);
            }
        }
    }
}

#[test]
fn m_ignores_every_stage() {
    let mut world = World::new(Mode::M, None, sv39(0));
    world.hart.satp = (8 << 60) | 1;
    world.hart.vsatp = (8 << 60) | 1;
    assert_eq!(address(&world.run(Kind::Load, BASE, 8)), BASE);
}

// MPRV.

#[test]
fn mprv_uses_mpp_and_mpv_for_loads_and_stores_alone() {
    for kind in KINDS {
        for mprv in [false, true] {
            for mpv in [false, true] {
                for mpp in [0, 1, 3] {
                    for mode in Mode::ALL {
                        let mut hart = Hart::new(0, 0, 0).in_mode(mode);
                        hart.mstatus = with_mpp(hart.mstatus, mpp);
                        hart.mstatus = with_bit(hart.mstatus, MPV, mpv);
                        hart.mstatus = with_bit(hart.mstatus, MPRV, mprv);
                        let expected = if mode == Mode::M && mprv && kind != Kind::Fetch {
                            match (mpp, mpv) {
                                (3, _) => Mode::M,
                                (0, false) => Mode::U,
                                (1, false) => Mode::Hs,
                                (0, true) => Mode::Vu,
                                _ => Mode::Vs,
                            }
                        } else {
                            mode
                        };
                        assert_eq!(effective_mode(&hart, mode, kind), expected);
                    }
                }
            }
        }
    }
}

#[test]
fn mprv_walks_as_the_mode_it_names() {
    for mode in Mode::ALL {
        let mut world = World::new(mode, sv39(0), sv39(0));
        if mode == Mode::M {
            world.hart.satp = 0;
        }
        world.hart.mstatus |= 1 << SUM;
        world.hart.vsstatus |= 1 << SUM;
        let plain = world.hart;
        let mut machine = plain.in_mode(Mode::M);
        machine.mstatus = with_bit(machine.mstatus, MPRV, true);
        machine.mstatus = with_mpp(machine.mstatus, mode.privilege());
        // With MPP=3, MPV must not be trusted.
        machine.mstatus = with_bit(machine.mstatus, MPV, mode.v() || mode == Mode::M);
        for kind in [Kind::Load, Kind::Store] {
            let access = Access {
                kind,
                address: VIRTUAL + DATA,
                width: 8,
            };
            assert_eq!(
                translate(&machine, &world.image, &access),
                translate(&plain, &world.image, &access),
                "{mode:?}"
            );
        }
        let fetch = world.image.base + 8;
        let access = Access {
            kind: Kind::Fetch,
            address: fetch,
            width: 4,
        };
        assert_eq!(address(&translate(&machine, &world.image, &access)), fetch);
    }
}

#[test]
fn the_flag_of_a_fault_under_mprv_is_the_effective_v() {
    let mut world = World::new(Mode::Vs, sv39(0), sv39(0));
    world.hart = world.hart.in_mode(Mode::M);
    world.hart.mstatus |= (1 << MPRV) | (1 << MPV);
    world.hart.mstatus = with_mpp(world.hart.mstatus, 1);
    let translation = world.access(Kind::Store);
    assert_eq!(rule(&translation), Some(Rule::SupervisorNeedsSum));
    assert_eq!(fault(&translation).cause, 15);
    assert!(fault(&translation).flag);
}

// The fault rules.

/// The four walks of tables.
const PARTS: [Part; 4] = [
    Part::Satp,
    Part::Vsatp,
    Part::HgatpForEntry,
    Part::HgatpForAccess,
];

/// A world with these tables for the part (4 KiB leaves elsewhere), and the place in the list of the part's entry at `level`.
fn world_for(part: Part, tables: Tables, level: u64) -> (World, usize) {
    let steps = (tables.top() - level) as usize;
    let own = Some(tables);
    match part {
        Part::Satp => (World::new(Mode::U, own, None), steps),
        Part::Vsatp => (World::new(Mode::Vu, own, sv39(0)), 3 + 4 * steps),
        Part::HgatpForEntry => {
            // Only the guest's root entry: a first stage with 1 GiB leaves reads one entry.
            (World::new(Mode::Vu, sv39(2), own), steps)
        }
        Part::HgatpForAccess => (World::new(Mode::Vu, None, own), steps),
        Part::Access => panic!("no table"),
    }
}

/// "(fetch, load, store)".
fn by_kind(kind: Kind, [fetch, load, store]: [u64; 3]) -> u64 {
    match kind {
        Kind::Fetch => fetch,
        Kind::Load => load,
        Kind::Store => store,
    }
}

/// The fault of the world's access on the way to the guest entry at this guest physical address: "the fault of the original access:
/// 20, 21 or 23. [...] Value, second value and instruction word stay."
fn fault_of_entry(world: &World, kind: Kind, guest: u64) -> Trap {
    Trap {
        cause: by_kind(kind, [20, 21, 23]),
        value: world.virtual_address() + DATA,
        second: guest >> 2,
        word: 0x3000,
        flag: true,
    }
}

/// What the fault at a part must be, by the paper.
fn expected_fault(world: &World, part: Part, kind: Kind) -> Trap {
    let first = Trap {
        cause: by_kind(kind, [12, 13, 15]),
        value: world.virtual_address() + DATA,
        second: 0,
        word: 0,
        flag: false,
    };
    match part {
        Part::Satp => first,
        Part::Vsatp => Trap {
            flag: true,
            ..first
        },
        Part::HgatpForEntry => fault_of_entry(world, kind, world.guest() + FIRST_ROOT + 8),
        Part::HgatpForAccess => Trap {
            cause: by_kind(kind, [20, 21, 23]),
            value: world.guest() + DATA,
            second: (world.guest() + DATA) >> 2,
            word: 0,
            flag: true,
        },
        Part::Access => panic!("no table"),
    }
}

/// Changes the part's entry at `level` of a walk through these tables, and checks that every kind of access in `kinds` ends
/// there by `expected`, with the right fault and the list up to that entry.
fn check_rule(
    part: Part,
    tables: Tables,
    level: u64,
    kinds: &[Kind],
    expected: Rule,
    change: impl Fn(u64) -> u64,
) {
    for kind in kinds {
        let (mut world, place) = world_for(part, tables, level);
        let sound = world.access(*kind);
        assert_eq!(
            address(&sound),
            BASE + DATA,
            "{part:?} {tables:?} {level} {kind:?}"
        );
        let read = sound.list.items()[place];
        assert_eq!(read.level, level);
        let changed = change(read.value);
        assert!(world.image.put(Machine(read.address), changed));
        let damaged = world.access(*kind);
        let context = format!("{part:?} {tables:?} level {level} {kind:?} {changed:x}");
        let why = damaged.why.expect(&context);
        assert_eq!(why.key(), (expected, part, Some(level)), "{context}");
        assert_eq!(why.address, read.address, "{context}");
        // Both tables' and data's addresses are multiples of 4, so the second value holds all of them.
        let second_stage = matches!(part, Part::HgatpForEntry | Part::HgatpForAccess);
        let guest = second_stage.then_some(GuestPhysical(fault(&damaged).second << 2));
        assert_eq!(why.guest, guest, "{context}");
        assert_eq!(
            fault(&damaged),
            expected_fault(&world, part, *kind),
            "{context}"
        );
        // Every place before is as in the sound walk, but for the changed entry itself; nothing is listed after it.
        assert!(damaged.list.count <= place + 1, "{context}");
        let last = damaged.list.items().last().copied().unwrap();
        assert_eq!(
            last,
            Read {
                value: changed,
                ..read
            },
            "{context}"
        );
    }
}

#[test]
fn entry_not_valid() {
    for part in PARTS {
        for tables in Tables::all() {
            for level in tables.walked() {
                check_rule(part, tables, level, &KINDS, Rule::NotValid, |e| e & !V);
                check_rule(part, tables, level, &KINDS, Rule::NotValid, |_| 0);
                check_rule(part, tables, level, &KINDS, Rule::NotValid, |_| !V);
            }
        }
    }
}

#[test]
fn entry_with_w_without_r() {
    for part in PARTS {
        for tables in Tables::all() {
            for level in tables.walked() {
                let rule = Rule::WriteWithoutRead;
                check_rule(part, tables, level, &KINDS, rule, |e| (e & !(R | X)) | W);
                check_rule(part, tables, level, &KINDS, rule, |e| (e & !R) | W | X);
            }
        }
    }
}

#[test]
fn entry_with_any_of_bits_63_to_54() {
    for part in PARTS {
        for tables in Tables::all() {
            for level in tables.walked() {
                for position in 54..64 {
                    let rule = Rule::ReservedBits;
                    check_rule(part, tables, level, &KINDS, rule, |e| e | (1 << position));
                }
            }
        }
    }
}

#[test]
fn bits_8_9_and_g_are_ignored() {
    for part in PARTS {
        for tables in Tables::all() {
            for level in tables.walked() {
                let (mut world, place) = world_for(part, tables, level);
                let sound = world.access(Kind::Load);
                let read = sound.list.items()[place];
                world.image.put(Machine(read.address), read.value | 0x320);
                assert_eq!(address(&world.access(Kind::Load)), BASE + DATA);
            }
        }
    }
}

#[test]
fn pointer_with_a_d_or_u() {
    for part in PARTS {
        for tables in Tables::all() {
            for level in tables.walked() {
                let plain = |e: u64| e & !(R | W | X | A | D | U);
                let check = |rule, flags| {
                    check_rule(part, tables, level, &KINDS, rule, |e| plain(e) | flags);
                };
                check(Rule::PointerWithA, A);
                check(Rule::PointerWithD, D);
                check(Rule::PointerWithU, U);
                check(Rule::PointerWithA, A | D | U);
            }
        }
    }
}

#[test]
fn pointer_at_level_zero() {
    for part in PARTS {
        for levels in DEPTHS {
            let rule = Rule::PointerAtLevelZero;
            check_rule(part, deepest(levels), 0, &KINDS, rule, |e| {
                e & !(R | W | X | A | D | U)
            });
        }
    }
}

#[test]
fn large_leaf_with_nonzero_low_ppn() {
    for part in PARTS {
        for tables in Tables::all() {
            let leaf = tables.leaf;
            for position in 0..(9 * leaf) {
                check_rule(part, tables, leaf, &KINDS, Rule::LargeLeafLowPpn, |e| {
                    e | (1 << (10 + position))
                });
            }
        }
    }
}

#[test]
fn leaf_not_accessed() {
    for part in PARTS {
        for tables in Tables::all() {
            let leaf = tables.leaf;
            check_rule(part, tables, leaf, &KINDS, Rule::NotAccessed, |e| e & !A);
        }
    }
}

#[test]
fn store_to_a_leaf_that_is_not_dirty() {
    for part in [Part::Satp, Part::Vsatp, Part::HgatpForAccess] {
        for tables in Tables::all() {
            let leaf = tables.leaf;
            check_rule(part, tables, leaf, &[Kind::Store], Rule::NotDirty, |e| {
                e & !D
            });
            for kind in [Kind::Fetch, Kind::Load] {
                let (mut world, place) = world_for(part, tables, leaf);
                let read = world.access(kind).list.items()[place];
                world.image.put(Machine(read.address), read.value & !D);
                assert_eq!(address(&world.access(kind)), BASE + DATA);
            }
        }
    }
}

#[test]
fn a_guest_entry_is_read_without_w_or_d_also_for_a_store() {
    for tables in Tables::all() {
        let (mut world, place) = world_for(Part::HgatpForEntry, tables, tables.leaf);
        let read = world.access(Kind::Store).list.items()[place];
        if tables.leaf > 0 {
            // The same leaf serves the access, which does need W and D: look at how far the walk comes.
            world
                .image
                .put(Machine(read.address), read.value & !(W | D));
            let translation = world.access(Kind::Store);
            assert_eq!(
                translation.why.map(|why| why.part),
                Some(Part::HgatpForAccess)
            );
        } else {
            world
                .image
                .put(Machine(read.address), read.value & !(W | D));
            assert_eq!(address(&world.access(Kind::Store)), BASE + DATA);
        }
    }
}

/// The second stage's walk for the guest entry of each level: the fault names that entry's own guest physical address.
#[test]
fn the_second_value_is_the_guest_entrys_own_address() {
    let entries = [
        FIRST_ROOT + 8 * (VIRTUAL >> 30),
        FIRST_1,
        FIRST_0 + 8 * (DATA >> 12),
    ];
    for (step, offset) in entries.into_iter().enumerate() {
        for kind in KINDS {
            let mut world = World::new(Mode::Vu, sv39(0), sv39(0));
            let page = offset >> 12;
            world.put(
                SECOND_0 + 8 * page,
                entry(BASE + (page << 12), ALL_RIGHTS & !U),
            );
            let translation = world.access(kind);
            let expected = fault_of_entry(&world, kind, GUEST + offset);
            assert_eq!(fault(&translation), expected);
            assert_eq!(translation.list.count, 4 * step + 3);
        }
    }
}

#[test]
fn rights_missing_at_a_leaf() {
    for part in PARTS {
        for tables in Tables::all() {
            let check = |kinds: &[Kind], rule, missing: u64| {
                check_rule(part, tables, tables.leaf, kinds, rule, |e| e & !missing);
            };
            // User mode, and the second stage always, needs U=1.
            check(&KINDS, Rule::NotUser, U);
            let read_kinds: &[Kind] = if part == Part::HgatpForEntry {
                &KINDS
            } else {
                &[Kind::Load]
            };
            check(read_kinds, Rule::NotReadable, R | W);
            if part == Part::HgatpForEntry {
                continue;
            }
            check(&[Kind::Store], Rule::NotWritable, W);
            check(&[Kind::Fetch], Rule::NotExecutable, X);
        }
    }
}

#[test]
fn supervisor_on_a_user_page() {
    for mode in [Mode::Hs, Mode::Vs] {
        for tables in Tables::all() {
            for own_sum in [false, true] {
                for other_sum in [false, true] {
                    let mut world = World::new(mode, Some(tables), sv39(0));
                    let (host, guest) = if mode.v() {
                        (other_sum, own_sum)
                    } else {
                        (own_sum, other_sum)
                    };
                    world.hart.mstatus = with_bit(world.hart.mstatus, SUM, host);
                    world.hart.vsstatus = with_bit(world.hart.vsstatus, SUM, guest);
                    let fetch = world.access(Kind::Fetch);
                    assert_eq!(rule(&fetch), Some(Rule::SupervisorFetch));
                    assert_eq!(fault(&fetch).cause, 12);
                    for kind in [Kind::Load, Kind::Store] {
                        let expected = (!own_sum).then_some(Rule::SupervisorNeedsSum);
                        assert_eq!(rule(&world.access(kind)), expected);
                    }
                }
            }
        }
    }
}

#[test]
fn supervisor_on_a_supervisor_page() {
    for mode in [Mode::Hs, Mode::Vs] {
        let mut world = World::new(mode, sv39(0), sv39(0));
        let offset = FIRST_0 + 8 * (DATA >> 12);
        let leaf = world.image.read(Machine(BASE + offset)).unwrap();
        world.put(offset, leaf & !U);
        for kind in KINDS {
            assert_eq!(address(&world.access(kind)), BASE + DATA);
        }
    }
}

/// A load from an execute-only page at either stage, by every setting of both MXR bits.
#[test]
fn mxr() {
    for mstatus_mxr in [false, true] {
        for vsstatus_mxr in [false, true] {
            for part in PARTS {
                for tables in Tables::all() {
                    let (mut world, place) = world_for(part, tables, tables.leaf);
                    let read = world.access(Kind::Load).list.items()[place];
                    world
                        .image
                        .put(Machine(read.address), read.value & !(R | W));
                    world.hart.mstatus = with_bit(world.hart.mstatus, MXR, mstatus_mxr);
                    world.hart.vsstatus = with_bit(world.hart.vsstatus, MXR, vsstatus_mxr);
                    let readable = match part {
                        Part::Satp | Part::HgatpForAccess => mstatus_mxr,
                        Part::Vsatp => mstatus_mxr || vsstatus_mxr,
                        _ => false,
                    };
                    let expected = (!readable).then_some(Rule::NotReadable);
                    assert_eq!(rule(&world.access(Kind::Load)), expected, "{part:?}");
                    // MXR is about loads only.
                    let store = rule(&world.access(Kind::Store));
                    let expected = if part == Part::HgatpForEntry {
                        Rule::NotReadable
                    } else {
                        Rule::NotWritable
                    };
                    assert_eq!(store, Some(expected));
                }
            }
        }
    }
}

/// Every leaf of every R, W, X, U, A, D setting against the paper's sentences, at 4 KiB, with V=0 and with V=1.
#[test]
fn all_leaf_flags_against_the_sentences() {
    for mode in [Mode::U, Mode::Hs, Mode::Vu, Mode::Vs] {
        let mut world = World::new(mode, sv39(0), sv39(0));
        let offset = FIRST_0 + 8 * (DATA >> 12);
        let leaf = world.image.read(Machine(BASE + offset)).unwrap() & !0xff;
        for flags in 0..256u64 {
            world.put(offset, leaf | flags);
            for setting in 0..16u32 {
                let on = |at: u32| (setting >> at) & 1 == 1;
                world.hart.mstatus = with_bit(world.hart.mstatus, SUM, on(0));
                world.hart.mstatus = with_bit(world.hart.mstatus, MXR, on(1));
                world.hart.vsstatus = with_bit(world.hart.vsstatus, SUM, on(2));
                world.hart.vsstatus = with_bit(world.hart.vsstatus, MXR, on(3));
                let sum = if mode.v() { on(2) } else { on(0) };
                let mxr = on(1) || (mode.v() && on(3));
                for kind in KINDS {
                    let has = |flag: u64| flags & flag != 0;
                    let shape = has(V) && (has(R) || (has(X) && !has(W)));
                    let user = mode.privilege() == 0;
                    let page = if user {
                        has(U)
                    } else {
                        !has(U) || (kind != Kind::Fetch && sum)
                    };
                    let right = match kind {
                        Kind::Load => has(R) || (has(X) && mxr),
                        Kind::Store => has(W) && has(D),
                        Kind::Fetch => has(X),
                    };
                    let passes = shape && page && right && has(A);
                    let translation = world.access(kind);
                    assert_eq!(
                        translation.answer == Answer::Address(Machine(BASE + DATA)),
                        passes,
                        "{mode:?} {kind:?} {flags:x} {setting:x}"
                    );
                }
            }
        }
    }
}

// Addresses out of range.

#[test]
fn high_bits_of_the_virtual_address() {
    for mode in [Mode::U, Mode::Vu] {
        for (levels, bits) in [(3, 39), (4, 48), (5, 57)] {
            let world = World::new(mode, Some(deepest(levels)), sv39(0));
            for kind in KINDS {
                let virtual_address = 1 << (bits - 1);
                let translation = world.run(kind, virtual_address, 4);
                assert_eq!(rule(&translation), Some(Rule::HighBits(bits)));
                let expected = Trap {
                    cause: kind.page_fault(),
                    value: virtual_address,
                    second: 0,
                    word: 0,
                    flag: mode.v(),
                };
                assert_eq!(fault(&translation), expected);
                assert_eq!(translation.list.count, 0);
            }
        }
    }
}

#[test]
fn high_bits_of_the_guest_physical_address_of_the_access() {
    // From a Bare vsatp: 64 bits.
    for (levels, bits) in [(3, 41), (4, 50), (5, 59)] {
        let world = World::new(Mode::Vs, None, Some(deepest(levels)));
        for kind in KINDS {
            for address in [1 << bits, 0xffff_ffff_ffff_fffc] {
                let translation = world.run(kind, address, 4);
                assert_eq!(rule(&translation), Some(Rule::HighBits(bits)));
                assert_eq!(fault(&translation).cause, kind.guest_page_fault());
                assert_eq!(fault(&translation).second, address >> 2);
                assert_eq!(fault(&translation).word, 0);
            }
        }
    }
    // From a first-stage leaf: 56 bits, which are too many for Sv39x4 and Sv48x4 alone.
    for (levels, bits) in [(3, 41), (4, 50)] {
        let mut world = World::new(Mode::Vu, sv39(0), Some(deepest(levels)));
        world.put(
            FIRST_0 + 8 * (DATA >> 12),
            entry(0xff_ffff_ffff_f000, ALL_RIGHTS),
        );
        let translation = world.access(Kind::Load);
        assert_eq!(rule(&translation), Some(Rule::HighBits(bits)));
        assert_eq!(fault(&translation).second, 0xff_ffff_ffff_f000 >> 2);
        assert_eq!(fault(&translation).value, VIRTUAL + DATA);
        assert_eq!(translation.list.count as u64, 3 * (levels + 1));
    }
}

#[test]
fn high_bits_of_the_guest_physical_address_of_an_entry() {
    // The guest's register names 56 bits, too.
    for (levels, bits) in [(3, 41), (4, 50)] {
        let mut world = World::new(Mode::Vu, sv39(0), Some(deepest(levels)));
        world.hart.vsatp = (8 << 60) | (1 << (bits - 12));
        for kind in KINDS {
            let translation = world.access(kind);
            let guest = (1 << bits) + 8;
            assert_eq!(
                translation.why,
                Some(Why {
                    rule: Rule::HighBits(bits),
                    part: Part::HgatpForEntry,
                    level: None,
                    address: guest,
                    width: 4,
                    guest: Some(GuestPhysical(guest)),
                })
            );
            assert_eq!(fault(&translation), fault_of_entry(&world, kind, guest));
            assert_eq!(translation.list.count, 0);
        }
    }
}

#[test]
fn an_entry_outside_the_image_is_an_access_fault_and_not_listed() {
    for kind in KINDS {
        for part in PARTS {
            let depths = DEPTHS.into_iter().map(deepest);
            for (tables, level) in
                depths.flat_map(|tables| tables.walked().map(move |l| (tables, l)))
            {
                let (mut world, place) = world_for(part, tables, level);
                let sound = world.access(kind);
                let outside = 0xff_ffff_ffff_f000;
                let at_the_top = level == tables.top();
                // The entry of this level is in a table outside: by the register at the top, else by the pointer above.
                if at_the_top {
                    let atp = tables.atp(outside);
                    match part {
                        Part::Satp => world.hart.satp = atp,
                        Part::Vsatp => world.hart.hgatp = 0,
                        _ => world.hart.hgatp = tables.atp(0xff_ffff_ffff_c000),
                    }
                    if part == Part::Vsatp {
                        world.hart.vsatp = atp;
                    }
                } else if part == Part::Vsatp {
                    // The guest's table is inside for the guest, its machine page outside.
                    let table_page = FIRST.table(tables, level);
                    world.put(
                        SECOND_0 + 8 * (table_page >> 12),
                        entry(outside, ALL_RIGHTS),
                    );
                } else {
                    let above = sound.list.items()[place - 1];
                    world.image.put(Machine(above.address), entry(outside, V));
                }
                let translation = world.access(kind);
                let why = translation.why.expect("a fault");
                assert_eq!(why.key(), (Rule::EntryOutside, part, Some(level)));
                assert!(!world.image.holds(Machine(why.address), 1));
                let trap = fault(&translation);
                assert_eq!(trap.cause, kind.access_fault());
                assert_eq!((trap.second, trap.word), (0, 0));
                assert_eq!(trap.flag, part != Part::Satp);
                let listed = if part == Part::Vsatp && at_the_top {
                    0
                } else {
                    place
                };
                assert_eq!(
                    translation.list.count, listed,
                    "{part:?} {tables:?} {level}"
                );
            }
        }
    }
}

#[test]
fn an_access_that_ends_outside_the_image() {
    for mode in [Mode::U, Mode::Vu] {
        let mut world = World::new(mode, sv39(2), sv39(2));
        for kind in KINDS {
            assert_eq!(
                address(&world.run(kind, VIRTUAL + 0xfffc, 4)),
                BASE + 0xfffc
            );
            let translation = world.run(kind, VIRTUAL + 0x1_0000, 4);
            assert_eq!(rule(&translation), Some(Rule::AccessOutside));
            let expected = Trap {
                cause: kind.access_fault(),
                value: VIRTUAL + 0x1_0000,
                second: 0,
                word: 0,
                flag: mode.v(),
            };
            assert_eq!(fault(&translation), expected);
            assert!(translation.list.count > 0);
        }
        // An image that ends where the leaf does not.
        world.image.bytes.truncate(0x9000);
        let translation = world.run(Kind::Load, VIRTUAL + 0x8ff8, 8);
        assert_eq!(address(&translation), BASE + 0x8ff8);
    }
}

#[test]
fn an_image_of_length_0() {
    let mut world = World::new(Mode::Vs, sv39(0), sv39(0));
    world.image.bytes.clear();
    let translation = world.access(Kind::Load);
    assert_eq!(rule(&translation), Some(Rule::EntryOutside));
    assert_eq!(translation.list.count, 0);
}

#[test]
fn the_last_entry_of_the_last_table_of_the_largest_addresses() {
    // Tables at the very end of the 56-bit space.
    for levels in DEPTHS {
        let mut world = World::new(Mode::Hs, None, None);
        world.image.base = (1 << 56) - LENGTH as u64;
        world.hart.satp = deepest(levels).atp((1 << 56) - 0x1000);
        let top = (1 << 56) - 8;
        let page = (1u64 << 56) - (1 << low_bits(levels - 1));
        assert!(world.image.put(Machine(top), entry(page, ALL_RIGHTS & !U)));
        let translation = world.run(Kind::Load, u64::MAX - 7, 8);
        assert_eq!(address(&translation), top);
        assert_eq!(translation.list.count, 1);
    }
}

/// No state of the tables makes the walk panic or list more reads than there are places: random entries, any depths.
#[test]
fn random_tables() {
    let mut state = 0x1234_5678_9abc_def0u64;
    let mut next = || {
        state ^= state << 13;
        state ^= state >> 7;
        state ^= state << 17;
        state
    };
    for _ in 0..300 {
        let [first, second] = [next(), next()].map(|bits| Some(deepest(3 + bits % 3)));
        let mut world = World::new(Mode::Vs, first, second);
        for _ in 0..8 {
            let offset = (next() % (LENGTH as u64 / 8)) * 8;
            let value = next();
            world.put(offset, value);
        }
        for kind in KINDS {
            let own = world.virtual_address() + DATA;
            for address in [next(), own, next() & 0x1ff_ffff_fff8] {
                let translation = world.run(kind, address & !7, 4);
                assert!(translation.list.count <= PLACES);
            }
        }
    }
}
