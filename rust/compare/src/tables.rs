//! Page tables of both stages, of three, four or five levels, written into an image by `put` lines. They are well formed; the scenes
//! damage them afterwards.

use std::collections::HashMap;

use second::address::Machine;

use crate::scribe::Scribe;

/// Entry bit V.
pub const V: u64 = 1;
/// Entry bit R.
pub const R: u64 = 1 << 1;
/// Entry bit W.
pub const W: u64 = 1 << 2;
/// Entry bit X.
pub const X: u64 = 1 << 3;
/// Entry bit U.
pub const U: u64 = 1 << 4;
/// Entry bit G.
pub const G: u64 = 1 << 5;
/// Entry bit A.
pub const A: u64 = 1 << 6;
/// Entry bit D.
pub const D: u64 = 1 << 7;
/// The bits that a pointer has clear.
pub const LEAF_BITS: u64 = R | W | X | U | A | D;

/// The low bits of an address that a leaf of this level keeps.
pub fn offset_bits(level: u64) -> u64 {
    12 + 9 * level
}

fn low_ones(count: u64) -> u64 {
    (1 << count) - 1
}

/// How many levels the tables of a stage that is on can have.
pub const DEPTHS: [u64; 3] = [3, 4, 5];

/// How many bits of a virtual address tables of so many levels translate: 39, 48 or 57.
pub fn first_bits(levels: u64) -> u64 {
    offset_bits(levels)
}

/// How many bits of a guest physical address they translate: 41, 50 or 59.
pub fn second_bits(levels: u64) -> u64 {
    offset_bits(levels) + 2
}

/// satp, vsatp or hgatp without ASID or VMID: the MODE for so many levels (8, 9 or 10), and the root.
pub fn atp(levels: u64, root: u64) -> u64 {
    ((levels + 5) << 60) | (root >> 12)
}

/// The bits above these made equal to the highest of them.
pub fn sign_extended(address: u64, bits: u64) -> u64 {
    let above = 64 - bits;
    (((address << above) as i64) >> above) as u64
}

/// An address with as many low bits of the target's as a leaf of this level keeps.
pub fn with_low_bits(address: u64, level: u64, target: u64) -> u64 {
    let kept = low_ones(offset_bits(level));
    (address & !kept) | (target & kept)
}

/// A pointer to a table.
pub fn pointer(table: u64) -> u64 {
    ((table >> 12) << 10) | V
}

/// A leaf of this level for the page that `target` lies in.
pub fn leaf(target: u64, level: u64, flags: u64) -> u64 {
    let page = target & !low_ones(offset_bits(level));
    ((page >> 12) << 10) | flags
}

/// A page that an address leads to.
#[derive(Clone, Copy, Debug)]
pub struct Mapping {
    /// The address of a page of 4096 bytes: virtual, or guest physical where vsatp is Bare.
    pub address: u64,
    /// The flags of the first-stage leaf (or the second-stage leaf where vsatp is Bare).
    pub flags: u64,
}

/// Where new addresses are taken from: few indexes for the upper levels, so that tables are shared.
struct Space {
    /// How many levels the tables have.
    levels: u64,
    /// How many indexes the root has.
    top: u64,
    /// The indexes of the pointers of each level from 1 up.
    pointers: Vec<Vec<u64>>,
}

impl Space {
    fn new(scribe: &mut Scribe, levels: u64, top: u64) -> Space {
        let mut pointers = Vec::new();
        for level in 1..levels {
            pointers.push(if level == levels - 1 {
                // One at an edge is as likely as another, or half as likely.
                let edge = scribe.rng.pick(&[0, top - 1, top / 2, top / 2 - 1]);
                let mut tops = vec![scribe.rng.below(top), edge];
                if levels == 3 {
                    tops.push(scribe.rng.below(top));
                }
                tops
            } else if level == 1 {
                vec![scribe.rng.below(512), scribe.rng.pick(&[0, 511, 256])]
            } else {
                let any = scribe.rng.below(512);
                vec![scribe.rng.pick(&[any, any, 0, 511])]
            });
        }
        Space {
            levels,
            top,
            pointers,
        }
    }

    /// An address for a leaf of this level: its low bits are those of the page it leads to.
    fn address(&self, scribe: &mut Scribe, level: u64, target: u64) -> u64 {
        let top = self.levels - 1;
        let mut address = 0;
        for above in (level + 1..self.levels).rev() {
            let index = scribe.rng.pick(&self.pointers[above as usize - 1]);
            address |= index << offset_bits(above);
        }
        let entries = if level == top { self.top } else { 512 };
        address |= scribe.rng.below(entries) << offset_bits(level);
        with_low_bits(address, level, target) & !0xfff
    }
}

/// The tables of a first stage.
struct FirstStage {
    /// The root, as satp or vsatp names it.
    root: u64,
    /// The machine page of each table, by the address that its pointer names.
    tables: HashMap<u64, u64>,
    /// Whether the tables are found through the second stage.
    through_second: bool,
    space: Space,
}

impl FirstStage {
    fn levels(&self) -> u64 {
        self.space.levels
    }
}

/// An image with the tables of satp, vsatp and hgatp.
pub struct Tables {
    /// The image's base.
    pub base: u64,
    /// The image's length.
    pub length: u64,
    /// satp.
    pub satp: u64,
    /// vsatp.
    pub vsatp: u64,
    /// hgatp; MODE 0 where the second stage is Bare.
    pub hgatp: u64,
    /// Pages that satp's tables lead to.
    pub host: Vec<Mapping>,
    /// Pages that vsatp's tables lead to.
    pub guest: Vec<Mapping>,
    /// Pages that hgatp's tables lead to, by guest physical address.
    pub guest_physical: Vec<Mapping>,
    /// Machine pages that nothing uses.
    free: Vec<u64>,
    second_root: Option<u64>,
    second_space: Space,
    /// Whether most leaves are of 4096 bytes.
    deep: bool,
}

impl Tables {
    /// A new image and its tables.
    pub fn build(scribe: &mut Scribe) -> Tables {
        let pages = 36 + scribe.rng.below(24);
        let length = pages << 12;
        let base = pick_base(scribe, length);
        scribe.line(&format!("image {base:x} {length:x}"));
        let levels = scribe.rng.pick(&DEPTHS);
        // Guest physical addresses that the first stage leads to have 56 bits.
        let top = if levels == 5 { 256 } else { 2048 };
        let second_space = Space::new(scribe, levels, top);
        let mut free: Vec<u64> = (0..pages).map(|page| base + (page << 12)).collect();
        let second_root = scribe.rng.chance(85).then(|| take_root(scribe, &mut free));
        shuffle(scribe, &mut free);
        let deep = scribe.rng.chance(50);
        let hgatp = match second_root {
            Some(root) => atp(levels, root) | (scribe.rng.below(1 << 14) << 44),
            None => (scribe.rng.bits() & 0x03ff_ffff_ffff_fffc) * scribe.rng.below(2),
        };
        let mut tables = Tables {
            base,
            length,
            satp: 0,
            vsatp: 0,
            hgatp,
            host: Vec::new(),
            guest: Vec::new(),
            guest_physical: Vec::new(),
            free,
            second_root,
            second_space,
            deep,
        };
        tables.build_host(scribe);
        tables.build_guest(scribe);
        tables
    }

    /// satp's tables and some pages.
    fn build_host(&mut self, scribe: &mut Scribe) {
        let Some(mut first) = self.first_stage(scribe, false) else {
            return;
        };
        self.satp = atp(first.levels(), first.root) | (scribe.rng.below(1 << 16) << 44);
        for _ in 0..4 {
            let target = self.target(scribe);
            let mapping = self.map_first(scribe, &mut first, target);
            self.host.extend(mapping);
        }
    }

    /// vsatp's tables and some pages, through the second stage where it is on.
    fn build_guest(&mut self, scribe: &mut Scribe) {
        let through_second = self.second_root.is_some();
        let Some(mut first) = self.first_stage(scribe, through_second) else {
            return;
        };
        self.vsatp = atp(first.levels(), first.root) | (scribe.rng.below(1 << 16) << 44);
        for _ in 0..5 {
            let machine = self.target(scribe);
            let flags = leaf_flags(scribe) | U;
            let Some(target) = self.guest_page(scribe, machine, flags) else {
                continue;
            };
            if through_second {
                self.guest_physical.push(Mapping {
                    address: target,
                    flags,
                });
            }
            let mapping = self.map_first(scribe, &mut first, target);
            self.guest.extend(mapping);
        }
        self.build_beyond(scribe);
    }

    /// With Sv57x4 some pages at guest physical addresses of more than 56 bits, which no first stage leads to.
    fn build_beyond(&mut self, scribe: &mut Scribe) {
        if self.second_root.is_none() || self.second_space.levels < 5 {
            return;
        }
        self.second_space = Space::new(scribe, 5, 2048);
        for _ in 0..2 {
            let machine = self.target(scribe);
            let flags = leaf_flags(scribe) | U;
            let page = self.guest_page(scribe, machine, flags);
            self.guest_physical
                .extend(page.map(|address| Mapping { address, flags }));
        }
    }

    /// A first stage with an empty root.
    fn first_stage(&mut self, scribe: &mut Scribe, through_second: bool) -> Option<FirstStage> {
        let levels = scribe.rng.pick(&DEPTHS);
        let mut first = FirstStage {
            root: 0,
            tables: HashMap::new(),
            through_second,
            space: Space::new(scribe, levels, 512),
        };
        first.root = self.new_first_table(scribe, &mut first)?;
        Some(first)
    }

    /// A new table of a first stage: the address that a pointer to it names.
    fn new_first_table(&mut self, scribe: &mut Scribe, first: &mut FirstStage) -> Option<u64> {
        let machine = self.free.pop()?;
        let named = if first.through_second {
            // Nothing but R, U and A is needed to read entries.
            let flags = V | R | U | A | (scribe.rng.bits() & (W | X | G | D));
            self.guest_page(scribe, machine, flags)?
        } else {
            machine
        };
        first.tables.insert(named, machine);
        Some(named)
    }

    /// A guest physical address for a machine page, through a new second-stage leaf; the same address where that is Bare.
    fn guest_page(&mut self, scribe: &mut Scribe, machine: u64, flags: u64) -> Option<u64> {
        let Some(root) = self.second_root else {
            return Some(machine);
        };
        for _ in 0..8 {
            let level = self.leaf_level(scribe, self.second_space.levels);
            let guest = self.second_space.address(scribe, level, machine);
            if self.map_second(scribe, root, guest, leaf(machine, level, flags), level) {
                return Some(guest);
            }
        }
        None
    }

    /// Puts a second-stage leaf, and the tables above it. False where another mapping is in the way.
    fn map_second(
        &mut self,
        scribe: &mut Scribe,
        root: u64,
        guest: u64,
        leaf: u64,
        leaf_level: u64,
    ) -> bool {
        let mut table = root;
        let levels = self.second_space.levels;
        for level in (leaf_level + 1..levels).rev() {
            let place = table + 8 * second_index(guest, level, levels);
            let Some(below) = self.follow_or_new(scribe, place) else {
                return false;
            };
            table = below;
        }
        let place = table + 8 * second_index(guest, leaf_level, levels);
        put_if_empty(scribe, place, leaf)
    }

    /// The table that the entry at a machine address points to; a new one where the entry is empty.
    fn follow_or_new(&mut self, scribe: &mut Scribe, place: u64) -> Option<u64> {
        let entry = scribe.session.image.read(Machine(place))?;
        if entry == 0 {
            let table = self.free.pop()?;
            let entry = pointer(table) | ignored_bits(scribe);
            scribe.put(place, entry);
            return Some(table);
        }
        (entry & (R | X) == 0).then_some((entry >> 10) << 12)
    }

    /// Maps a page of the target's in a first stage; where that works, says how it is found.
    fn map_first(
        &mut self,
        scribe: &mut Scribe,
        first: &mut FirstStage,
        target: u64,
    ) -> Option<Mapping> {
        for _ in 0..8 {
            let level = self.leaf_level(scribe, first.levels());
            let address = first.space.address(scribe, level, target);
            let flags = leaf_flags(scribe);
            if self
                .try_map_first(scribe, first, address, leaf(target, level, flags), level)
                .is_some()
            {
                return Some(Mapping {
                    address: sign_extended(address, first_bits(first.levels())),
                    flags,
                });
            }
        }
        None
    }

    /// Puts a first-stage leaf, and the tables above it.
    fn try_map_first(
        &mut self,
        scribe: &mut Scribe,
        first: &mut FirstStage,
        address: u64,
        leaf: u64,
        leaf_level: u64,
    ) -> Option<()> {
        let mut table = *first.tables.get(&first.root)?;
        for level in (leaf_level + 1..first.levels()).rev() {
            let place = table + 8 * first_index(address, level);
            let entry = scribe.session.image.read(Machine(place))?;
            let named = if entry == 0 {
                let named = self.new_first_table(scribe, first)?;
                let entry = pointer(named) | ignored_bits(scribe);
                scribe.put(place, entry);
                named
            } else if entry & (R | X) == 0 {
                (entry >> 10) << 12
            } else {
                return None;
            };
            table = *first.tables.get(&named)?;
        }
        put_if_empty(scribe, table + 8 * first_index(address, leaf_level), leaf).then_some(())
    }

    /// The level of a new leaf in tables of so many levels.
    fn leaf_level(&self, scribe: &mut Scribe, levels: u64) -> u64 {
        let small = if self.deep { 80 } else { 50 };
        if scribe.rng.chance(small) {
            0
        } else {
            1 + scribe.rng.below(levels - 1)
        }
    }

    /// A machine page for data: mostly a free one, else a used one, the last one, or one outside the image.
    fn target(&mut self, scribe: &mut Scribe) -> u64 {
        let last = self.base + self.length - 0x1000;
        match scribe.rng.below(30) {
            0 => last,
            1 => self.base,
            2 => self.outside_page(scribe),
            3 => self.base + (scribe.rng.below(self.length >> 12) << 12),
            _ => self.free.pop().unwrap_or(last),
        }
    }

    /// A machine page outside the image (or, where the image begins at 0, perhaps its last one).
    pub fn outside_page(&self, scribe: &mut Scribe) -> u64 {
        let page = match scribe.rng.below(4) {
            0 => self.base + self.length,
            1 => self.base.wrapping_sub(0x1000),
            2 => 0xff_ffff_ffff_f000,
            _ => scribe.rng.bits(),
        };
        page & 0xff_ffff_ffff_f000
    }
}

/// The index of a first-stage entry.
pub fn first_index(address: u64, level: u64) -> u64 {
    (address >> offset_bits(level)) & 0x1ff
}

/// The index of an entry of a second stage of so many levels; the root has 2048.
pub fn second_index(address: u64, level: u64, levels: u64) -> u64 {
    let mask = if level == levels - 1 { 0x7ff } else { 0x1ff };
    (address >> offset_bits(level)) & mask
}

/// Puts an entry where none is. False where one is.
fn put_if_empty(scribe: &mut Scribe, place: u64, entry: u64) -> bool {
    if scribe.session.image.read(Machine(place)) != Some(0) {
        return false;
    }
    scribe.put(place, entry);
    true
}

/// Bits that the walk ignores: G and bits 9:8.
fn ignored_bits(scribe: &mut Scribe) -> u64 {
    if scribe.rng.chance(20) {
        scribe.rng.bits() & (G | 0x300)
    } else {
        0
    }
}

/// The flags of a leaf: mostly all rights.
fn leaf_flags(scribe: &mut Scribe) -> u64 {
    let rights = match scribe.rng.below(20) {
        0 => R,
        1 => X,
        2 => R | X,
        3 => R | W,
        _ => R | W | X,
    };
    let mut flags = V | rights | ignored_bits(scribe);
    if scribe.rng.chance(98) {
        flags |= A;
    }
    if scribe.rng.chance(95) {
        flags |= D;
    }
    if scribe.rng.chance(60) {
        flags |= U;
    }
    flags
}

/// A base: 0, 80000000, one at the end of the 56-bit space or of a guest's, or any; large leaves fit at every one.
fn pick_base(scribe: &mut Scribe, length: u64) -> u64 {
    match scribe.rng.below(9) {
        0 => 0,
        1 => (1 << 56) - length,
        2 => scribe.rng.bits() & 0x7f_ffff_ffff_f000,
        3 => scribe.rng.bits() & 0x7f_ffff_c000_0000,
        4 => (1 << 41) - (length & !0x3fff),
        8 => (1 << 50) - (length & !0x3fff),
        5 => scribe.rng.bits() & 0x0f_ffff_f000,
        _ => 0x8000_0000,
    }
}

/// A second-stage root: four pages at a multiple of 16 KiB.
fn take_root(scribe: &mut Scribe, free: &mut Vec<u64>) -> u64 {
    let aligned: Vec<u64> = free
        .iter()
        .copied()
        .filter(|page| page & 0x3fff == 0 && free.contains(&(page + 0x3000)))
        .collect();
    let root = scribe.rng.pick(&aligned);
    free.retain(|page| !(root..root + 0x4000).contains(page));
    root
}

/// Another order.
fn shuffle(scribe: &mut Scribe, pages: &mut [u64]) {
    for place in 1..pages.len() {
        let other = scribe.rng.below(place as u64 + 1) as usize;
        pages.swap(place, other);
    }
}

#[cfg(test)]
mod tests {
    use super::*;

    #[test]
    fn the_numbers_of_each_depth() {
        assert_eq!(DEPTHS.map(first_bits), [39, 48, 57]);
        assert_eq!(DEPTHS.map(second_bits), [41, 50, 59]);
        let registers = DEPTHS.map(|levels| atp(levels, 0x8000_0000));
        let expected = [8, 9, 10].map(|mode| (mode << 60) | 0x8_0000);
        assert_eq!(registers, expected);
    }

    #[test]
    fn addresses_and_indexes() {
        assert_eq!(sign_extended(1 << 47, 48), 0xffff_8000_0000_0000);
        assert_eq!(sign_extended(1 << 47, 57), 1 << 47);
        let ones = (1 << 59) - 1;
        assert_eq!(with_low_bits(ones, 4, 0), 0x7ff << 48);
        assert_eq!(with_low_bits(0, 1, ones), 0x1f_ffff);
        for levels in DEPTHS {
            let top = levels - 1;
            for level in 0..levels {
                let index = if level == top { 0x7ff } else { 0x1ff };
                assert_eq!(second_index(ones, level, levels), index);
                assert_eq!(first_index(ones, level), 0x1ff);
            }
        }
    }

    #[test]
    fn leaves_begin_at_a_multiple_of_their_size() {
        assert_eq!(leaf(0x8000_9000, 0, V | R), (0x8_0009 << 10) | 3);
        assert_eq!(leaf(0x180_8000_9000, 3, V | R), (0x1800_0000 << 10) | 3);
        assert_eq!(leaf(0x180_8000_9000, 4, V | R), 3);
    }
}
