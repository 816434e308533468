//! Images in which every page is reached through both stages, or those that are on, by leaves of one level for each stage: the ground
//! of the systematic scenes. And what makes an access through them end by a rule.

use second::address::Machine;
use second::bits::{low_ones, with_bit, with_field};
use second::hart::{Hart, Mode};
use second::hypervisor::{GuestAccess, Operation};
use second::registers::{HU, MXR, SPVP, SUM};
use second::walk::{effective_mode, walk, Access, Key, Manner, Part, Read, Rule, Walked};

use crate::scenes::{guest, walks};
use crate::scribe::Scribe;
use crate::tables::{
    atp, first_bits, first_index, leaf, offset_bits, pointer, second_index, sign_extended,
    with_low_bits, A, D, DEPTHS, LEAF_BITS, R, U, V, W, X,
};

/// The image's length: sixteen pages.
pub const LENGTH: u64 = 0x1_0000;
/// The offset of the first page of data.
pub const DATA: u64 = 0xd000;
/// A leaf's flags.
pub const ALL_RIGHTS: u64 = V | R | W | X | U | A | D;

/// The tables of a stage: how many levels they have, and the level of their leaves.
#[derive(Clone, Copy, Debug, PartialEq, Eq)]
pub struct Shape {
    /// 3, 4 or 5.
    pub levels: u64,
    /// Below that.
    pub leaf: u64,
}

impl Shape {
    /// The level of the root.
    pub fn top(self) -> u64 {
        self.levels - 1
    }
}

/// Tables of so many levels with leaves of 4096 bytes.
fn deepest(levels: u64) -> Shape {
    Shape { levels, leaf: 0 }
}

/// The shapes of both stages in each of the worlds: each pair of depths, Bare too, with leaves of 4096 bytes; each level of leaves of
/// each depth at the first stage with the second one Bare; and each level with each, through tables of a depth that has them,
/// every one in turn.
pub fn pairs() -> Vec<(Option<Shape>, Option<Shape>)> {
    let depths = DEPTHS.map(|levels| Some(deepest(levels)));
    let with_bare = || depths.into_iter().chain([None]);
    let mut pairs: Vec<_> = with_bare()
        .flat_map(|first| with_bare().map(move |second| (first, second)))
        .collect();
    for levels in DEPTHS {
        let large = (1..levels).map(|leaf| (Some(Shape { levels, leaf }), None));
        pairs.extend(large);
    }
    for first in 0..5 {
        let partners = (0..5).map(|second| (turn(first, second), turn(second, first)));
        pairs.extend(
            partners
                .filter(|(one, other)| one.leaf + other.leaf > 0)
                .map(|(one, other)| (Some(one), Some(other))),
        );
    }
    pairs.extend((1..5).map(|second| (None, Some(turn(second, 0)))));
    pairs
}

/// Leaves of this level in tables of a depth that has them, chosen by their partner.
fn turn(leaf: u64, partner: u64) -> Shape {
    let least = (leaf + 1).max(3);
    let levels = least + partner % (6 - least);
    Shape { levels, leaf }
}

/// The offset of the table of a level of a stage: the second stage's root, its others, the first stage's root, its others.
fn table(stage: u64, shape: Shape, level: u64) -> u64 {
    let root = level == shape.top();
    match (stage, root) {
        (1, true) => 0x8000,
        (1, false) => 0x9000 + (level << 12),
        (_, true) => 0,
        (_, false) => 0x4000 + (level << 12),
    }
}

/// An event that walks.
#[derive(Clone, Copy, Debug, PartialEq, Eq)]
pub enum Walking {
    /// A translation.
    Translation(Access),
    /// A hypervisor load or store.
    Outside(GuestAccess),
}

impl Walking {
    /// Its line, without a word.
    pub fn text(&self) -> String {
        match self {
            Walking::Translation(access) => walks::text(access),
            Walking::Outside(access) => guest::text(access),
        }
    }

    /// What it comes to, if the hart is not refused.
    pub fn walked(&self, scribe: &Scribe, hart: &Hart) -> Option<Walked> {
        let (access, manner) = match self {
            Walking::Translation(access) => {
                let mode = effective_mode(hart, hart.checked_mode()?, access.kind);
                let needs_x = false;
                (*access, Manner { mode, needs_x })
            }
            Walking::Outside(access) => (access.access(), access.manner(hart)),
        };
        Some(walk(hart, &scribe.session.image, &access, manner))
    }

    /// The load of the eight bytes around what a hypervisor store stores.
    fn load_of_what_it_stores(&self) -> Option<GuestAccess> {
        let Walking::Outside(access) = self else {
            return None;
        };
        let store = matches!(access.operation, Operation::Store { .. });
        store.then_some(GuestAccess {
            operation: Operation::Load { signed: false },
            address: access.address & !7,
            width: 8,
        })
    }

    /// Its width and address.
    fn place(&mut self) -> (&mut u64, &mut u64) {
        match self {
            Walking::Translation(access) => (&mut access.width, &mut access.address),
            Walking::Outside(access) => (&mut access.width, &mut access.address),
        }
    }

    /// The hart with the privilege that it is made with.
    fn as_supervisor(&self, hart: Hart, supervisor: bool) -> Hart {
        let v = hart.v == 1;
        match self {
            Walking::Translation(_) => hart.in_mode(Mode::below_machine(v, supervisor)),
            Walking::Outside(_) => Hart {
                hstatus: with_bit(hart.hstatus, SPVP, supervisor),
                ..hart
            },
        }
    }

    /// The hart without the SUM that it looks at.
    fn without_sum(&self, mut hart: Hart) -> Hart {
        let outside = matches!(self, Walking::Outside(_));
        if outside || hart.v == 1 {
            hart.vsstatus = with_bit(hart.vsstatus, SUM, false);
        } else {
            hart.mstatus = with_bit(hart.mstatus, SUM, false);
        }
        hart
    }
}

/// An image in which every page is reached through both stages, or those that are on, by leaves of one level for each stage.
pub struct World {
    /// The image's base.
    pub base: u64,
    /// The guest physical address of the image's first byte.
    guest: u64,
    /// Its virtual address.
    virtual_address: u64,
    /// The tables of the first stage, if it is on.
    pub first: Option<Shape>,
    /// The tables of the second stage, if it is on.
    pub second: Option<Shape>,
}

/// What makes a walk end with a fault: another hart, another access, another entry.
pub struct Spoilt {
    /// The hart.
    pub hart: Hart,
    /// The access.
    pub event: Walking,
    /// The entry's machine address, and what it becomes.
    pub entry: Option<(u64, u64)>,
}

impl World {
    /// A new image with these tables.
    pub fn build(scribe: &mut Scribe, first: Option<Shape>, second: Option<Shape>) -> World {
        let any = scribe.rng.bits() & 0x7f_ffff_c000_0000;
        let base = scribe
            .rng
            .pick(&[0x8000_0000, 0x8000_0000, 0, any, (1 << 56) - (1 << 30)]);
        let mut world = World {
            base,
            guest: base,
            virtual_address: 0,
            first,
            second,
        };
        if let Some(shape) = second {
            // What the first stage leads to has 56 bits.
            let narrow = first.is_some() && shape.levels == 5;
            let top = if narrow { 256 } else { 2048 };
            world.guest = any_address(scribe, shape, top, base);
        }
        world.virtual_address = match first {
            Some(shape) => {
                let address = any_address(scribe, shape, 512, world.guest);
                sign_extended(address, first_bits(shape.levels))
            }
            None => world.guest,
        };
        scribe.line(&format!("image {base:x} {LENGTH:x}"));
        for stage in [2, 1] {
            world.put_tables(scribe, stage);
        }
        let data = (DATA..DATA + 0x60).chain(LENGTH - 16..LENGTH);
        for place in data.chain(DATA + 0xff0..DATA + 0x1010).step_by(8) {
            let value = scribe.rng.bits();
            scribe.put(base + place, value);
        }
        world
    }

    /// The pointers of a stage, and the leaves of all pages.
    fn put_tables(&self, scribe: &mut Scribe, stage: u64) {
        let Some(shape) = self.shape(stage) else {
            return;
        };
        for level in shape.leaf + 1..shape.levels {
            let below = self.target(stage) + table(stage, shape, level - 1);
            let place = self.base + self.entry_offset(stage, level, 0);
            scribe.put(place, pointer(below));
        }
        let pages = if shape.leaf == 0 { LENGTH >> 12 } else { 1 };
        for page in 0..pages {
            let (place, leaf) = self.leaf(stage, page << 12, ALL_RIGHTS);
            scribe.put(place, leaf);
        }
    }

    /// The tables of a stage.
    pub fn shape(&self, stage: u64) -> Option<Shape> {
        match stage {
            1 => self.first,
            _ => self.second,
        }
    }

    /// What a stage leads to.
    fn target(&self, stage: u64) -> u64 {
        match stage {
            1 => self.guest,
            _ => self.base,
        }
    }

    /// The offset of the entry of a stage and level for the page at an offset.
    fn entry_offset(&self, stage: u64, level: u64, offset: u64) -> u64 {
        let shape = self.shape(stage).unwrap_or(deepest(3));
        let index = match stage {
            1 => first_index(self.virtual_address + offset, level),
            _ => second_index(self.guest + offset, level, shape.levels),
        };
        table(stage, shape, level) + 8 * index
    }

    /// The machine address of the leaf of a stage for the page at an offset, and that leaf with these flags.
    pub fn leaf(&self, stage: u64, offset: u64, flags: u64) -> (u64, u64) {
        let level = self.shape(stage).map_or(0, |shape| shape.leaf);
        let place = self.base + self.entry_offset(stage, level, offset);
        (place, leaf(self.target(stage) + offset, level, flags))
    }

    /// The offset of a stage's table of leaves, if its leaves are of 4096 bytes; else of its root.
    pub fn table_of_leaves(&self, stage: u64) -> u64 {
        let shape = self.shape(stage).unwrap_or(deepest(3));
        table(stage, shape, shape.leaf)
    }

    /// The offset of the first stage's root.
    pub fn first_root(&self) -> u64 {
        let shape = self.first.unwrap_or(deepest(3));
        table(1, shape, shape.top())
    }

    /// The address that leads to an offset.
    pub fn address(&self, offset: u64) -> u64 {
        self.virtual_address + offset
    }

    /// Whether each stage is on.
    pub fn stages(&self) -> [bool; 2] {
        [self.first.is_some(), self.second.is_some()]
    }

    /// satp or vsatp for the first stage's tables; Bare where there are none, with any root.
    fn first_atp(&self, scribe: &mut Scribe) -> u64 {
        let root = self.guest + self.first_root();
        match self.first {
            Some(shape) => atp(shape.levels, root),
            None => scribe.rng.pick(&[0, (root >> 12) & low_ones(44)]),
        }
    }

    /// A hart whose guest has these tables. Its own satp leads elsewhere.
    pub fn hart(&self, scribe: &mut Scribe, mode: Mode, hu: bool, spvp: bool) -> Hart {
        let mut hart = Hart::new(0, 0, 0).in_mode(mode);
        hart.pc = scribe.rng.bits() & !3;
        hart.hstatus = with_bit(hart.hstatus, HU, hu);
        hart.hstatus = with_bit(hart.hstatus, SPVP, spvp);
        hart.satp = atp(3, self.base);
        hart.vsatp = self.first_atp(scribe);
        if let Some(shape) = self.second {
            hart.hgatp = atp(shape.levels, self.base) | (scribe.rng.below(1 << 14) << 44);
        }
        hart.vsstatus |= 1 << SUM;
        hart.mstatus |= scribe.rng.bits() & (1 << SUM);
        hart.medeleg = scribe.rng.pick(&[0, 0xf0_b7ff]);
        hart.hedeleg = scribe.rng.pick(&[0, 0xb1ff]);
        hart.mtvec = scribe.rng.bits() & !2;
        hart.stvec = scribe.rng.bits() & !2;
        hart.vstvec = scribe.rng.bits() & !2;
        hart
    }

    /// A hart outside the guest, in any mode.
    pub fn any_hart(&self, scribe: &mut Scribe) -> Hart {
        let mode = scribe.rng.pick(&[Mode::U, Mode::Hs, Mode::M]);
        let spvp = scribe.rng.chance(50);
        let mut hart = self.hart(scribe, mode, true, spvp);
        hart.mstatus |= scribe.rng.bits() & (1 << MXR);
        hart.vsstatus |= scribe.rng.bits() & (1 << MXR);
        hart
    }

    /// A hart that walks the tables itself: as the guest's user, or with V=0 as a user by satp. Nothing else is in its way.
    pub fn walking_hart(&self, scribe: &mut Scribe, v: bool) -> Hart {
        let mut hart = self.hart(scribe, Mode::below_machine(v, false), false, false);
        if !v {
            hart.satp = self.first_atp(scribe);
            hart.vsatp = atp(3, self.base);
        }
        hart
    }

    /// A place in the page of data, for any width.
    pub fn data(&self, scribe: &mut Scribe) -> u64 {
        self.address(DATA + 8 * scribe.rng.below(12))
    }

    /// The access with what spoils it, in so many of 100 cases with the hart after it. The entry is put back, and what a hypervisor store
    /// left is loaded.
    pub fn perform_spoilt(&self, scribe: &mut Scribe, spoilt: &Spoilt, shown: u64) {
        let old = spoilt.entry.and_then(|(place, entry)| {
            let old = scribe.session.image.read(Machine(place))?;
            scribe.put(place, entry);
            Some((place, old))
        });
        scribe.whole_hart(&spoilt.hart);
        scribe.event(&spoilt.event.text());
        scribe.show_sometimes(shown);
        if let Some((place, old)) = old {
            scribe.put(place, old);
        }
        if let Some(load) = spoilt.event.load_of_what_it_stores() {
            scribe.event(&guest::text(&load));
        }
    }

    /// What makes this event end by this rule here, if something of this world can.
    pub fn spoilt(
        &self,
        scribe: &mut Scribe,
        mut hart: Hart,
        mut event: Walking,
        key: Key,
    ) -> Option<Spoilt> {
        let (rule, part, level) = key;
        match rule {
            Rule::NotReadable => hart = with_mxr(hart, [false, false]),
            Rule::NotUser => hart = event.as_supervisor(hart, false),
            Rule::SupervisorFetch => hart = event.as_supervisor(hart, true),
            Rule::SupervisorNeedsSum => hart = event.without_sum(event.as_supervisor(hart, true)),
            _ => {}
        }
        let (width, address) = event.place();
        let mut changed = None;
        match (rule, part) {
            (Rule::Misaligned, _) => {
                *width = (*width).max(2);
                *address |= 1;
            }
            (Rule::AccessOutside, _) => *address = self.address(LENGTH),
            (Rule::HighBits(bits), Part::HgatpForEntry) => {
                let high = u64::from(bits) + scribe.rng.below(56u64.saturating_sub(bits.into()));
                hart.vsatp |= 1 << (high - 12);
            }
            (Rule::HighBits(bits), _) => {
                *address ^= 1 << (u64::from(bits) + scribe.rng.below(64 - u64::from(bits)));
            }
            (Rule::EntryOutside, _) if level == self.top_of(part) => {
                let outside = |atp: u64, root: u64| with_field(atp, 0, 44, root >> 12);
                match part {
                    Part::Satp => hart.satp = outside(hart.satp, self.guest + LENGTH),
                    Part::Vsatp => hart.vsatp = outside(hart.vsatp, self.guest + LENGTH),
                    _ => hart.hgatp = outside(hart.hgatp, self.base + LENGTH),
                }
            }
            _ => changed = Some(self.changed_entry(scribe, &hart, &event, key)?),
        }
        let spoilt = Spoilt {
            hart,
            event,
            entry: changed,
        };
        (ends_by(scribe, &spoilt) == Some(key)).then_some(spoilt)
    }

    /// The level of the root of a part's tables.
    fn top_of(&self, part: Part) -> Option<u64> {
        self.shape(stage_of(part)).map(Shape::top)
    }

    /// An entry of the event's walk that this rule is about, and what it becomes.
    fn changed_entry(
        &self,
        scribe: &mut Scribe,
        hart: &Hart,
        event: &Walking,
        (rule, part, level): Key,
    ) -> Option<(u64, u64)> {
        let walked = event.walked(scribe, hart)?;
        let items = walked.list.items();
        // A table outside the image is named one level above.
        let level = level? + u64::from(rule == Rule::EntryOutside);
        let stage = stage_of(part);
        let of_level = |read: &&Read| (read.stage, read.level) == (stage, level);
        let read = match part {
            Part::HgatpForEntry => items.iter().find(of_level)?,
            _ => items.iter().rfind(of_level)?,
        };
        let value = read.value;
        let changed = match rule {
            Rule::EntryOutside => pointer(self.target(stage) + LENGTH),
            Rule::NotValid => value & !V,
            Rule::WriteWithoutRead => (value & !R) | W,
            Rule::ReservedBits => value | (1 << (54 + scribe.rng.below(10))),
            Rule::PointerWithA => (value & !LEAF_BITS) | A,
            Rule::PointerWithD => (value & !LEAF_BITS) | D,
            Rule::PointerWithU => (value & !LEAF_BITS) | U,
            Rule::PointerAtLevelZero => value & !LEAF_BITS,
            Rule::LargeLeafLowPpn => value | ALL_RIGHTS | (1 << (10 + scribe.rng.below(9 * level))),
            Rule::NotAccessed => value & !A,
            Rule::NotDirty => value & !D,
            Rule::NotUser => value & !U,
            Rule::NotReadable => value & !(R | W),
            Rule::NotWritable => value & !W,
            Rule::NotExecutable | Rule::NotExecutableForHlvx => value & !X,
            _ => value,
        };
        Some((read.address, changed))
    }
}

/// An address that leads to a target through tables of this shape: any indexes, but at level 0 those of the image's pages.
fn any_address(scribe: &mut Scribe, shape: Shape, top: u64, target: u64) -> u64 {
    let mut address = (1 + scribe.rng.below(top - 1)) << offset_bits(shape.top());
    for level in 1..shape.top() {
        address |= scribe.rng.below(512) << offset_bits(level);
    }
    with_low_bits(address, shape.leaf, target)
}

/// The stage that a part belongs to.
fn stage_of(part: Part) -> u64 {
    match part {
        Part::Satp | Part::Vsatp => 1,
        _ => 2,
    }
}

/// The rule that a spoilt access ends by.
fn ends_by(scribe: &mut Scribe, spoilt: &Spoilt) -> Option<Key> {
    let image = &mut scribe.session.image;
    let old = spoilt.entry.and_then(|(place, entry)| {
        let old = image.read(Machine(place))?;
        image.put(Machine(place), entry);
        Some((place, old))
    });
    let walked = spoilt.event.walked(scribe, &spoilt.hart);
    if let Some((place, old)) = old {
        scribe.session.image.put(Machine(place), old);
    }
    walked?.end.err().map(|fault| fault.why.key())
}

/// A hart with vsstatus.MXR and mstatus.MXR so.
pub fn with_mxr(mut hart: Hart, [guest, host]: [bool; 2]) -> Hart {
    hart.vsstatus = with_bit(hart.vsstatus, MXR, guest);
    hart.mstatus = with_bit(hart.mstatus, MXR, host);
    hart
}

/// A hypervisor store of this value.
pub fn store(value: u64, address: u64, width: u64) -> GuestAccess {
    GuestAccess {
        operation: Operation::Store { value },
        address,
        width,
    }
}

#[cfg(test)]
mod tests {
    use super::*;

    /// The worlds have every pair of depths with small leaves, every pair of leaf levels, and every leaf level of every depth at each
    /// walk.
    #[test]
    fn the_worlds() {
        let pairs = pairs();
        assert_eq!(pairs.len(), 53);
        let shapes: Vec<Shape> = DEPTHS
            .into_iter()
            .flat_map(|levels| (0..levels).map(move |leaf| Shape { levels, leaf }))
            .collect();
        for (place, pair) in pairs.iter().enumerate() {
            assert!(!pairs[..place].contains(pair), "{pair:?} is there once");
            let known = |shape: &Option<Shape>| shape.is_none_or(|shape| shapes.contains(&shape));
            assert!(known(&pair.0) && known(&pair.1), "{pair:?}");
        }
        for shape in shapes {
            let shape = Some(shape);
            assert!(pairs.contains(&(shape, None)));
            assert!(pairs.iter().any(|pair| pair.0.is_some() && pair.1 == shape));
        }
        let levels: [Option<u64>; 6] = [None, Some(0), Some(1), Some(2), Some(3), Some(4)];
        let leaf = |shape: Option<Shape>| shape.map(|shape| shape.leaf);
        for first in levels {
            for second in levels {
                let found = pairs.iter().map(|pair| (leaf(pair.0), leaf(pair.1)));
                assert!(found.clone().any(|pair| pair == (first, second)));
            }
        }
    }
}
