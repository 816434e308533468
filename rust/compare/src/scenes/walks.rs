//! Translations, and hypervisor loads and stores, through page tables: well formed ones, and the same ones damaged in every way that
//! the rules name.

use second::address::Machine;
use second::bits::{bit, with_bit, with_field};
use second::hart::{Hart, Mode};
use second::hypervisor::{GuestAccess, Operation};
use second::registers::{self, find, with_mpp, HU, MPRV, MPV, MXR, SPVP, SUM};
use second::script::Answer;
use second::trap::Trap;
use second::walk::{self, translate, walk, Access, Kind, Read, Walked};

use crate::scenes::guest;
use crate::scribe::Scribe;
use crate::tables::{Mapping, Tables, A, D, G, LEAF_BITS, R, U, V, W, X};

/// Which tables a group of accesses uses.
#[derive(Clone, Copy, PartialEq, Eq)]
enum Regime {
    /// satp, V=0.
    Host,
    /// vsatp, and hgatp where it is on.
    Guest,
    /// vsatp Bare, hgatp.
    GuestPhysical,
    /// Every stage Bare.
    Bare,
}

/// How the accesses of a group are made.
#[derive(Clone, Copy, PartialEq, Eq)]
enum Way {
    /// As translations.
    Translation,
    /// As hypervisor loads and stores: HLVX for a fetch.
    Outside,
}

/// An image with tables, and some groups of accesses.
pub fn walks(scribe: &mut Scribe) {
    let tables = Tables::build(scribe);
    for _ in 0..24 {
        group(scribe, &tables);
    }
}

/// Some accesses of one hart.
fn group(scribe: &mut Scribe, tables: &Tables) {
    let regime = scribe.rng.pick(&[
        Regime::Guest,
        Regime::Guest,
        Regime::Guest,
        Regime::Guest,
        Regime::Guest,
        Regime::Guest,
        Regime::Host,
        Regime::Host,
        Regime::Host,
        Regime::GuestPhysical,
        Regime::GuestPhysical,
        Regime::Bare,
    ]);
    let mut hart = hart_for(scribe, tables, regime);
    let way = match regime {
        Regime::Host => Way::Translation,
        _ if scribe.rng.chance(25) => Way::Outside,
        _ => Way::Translation,
    };
    if way == Way::Outside {
        outside(scribe, &mut hart);
    }
    scribe.whole_hart(&hart);
    for _ in 0..2 + scribe.rng.below(4) {
        let access = choose_access(scribe, tables, regime, way);
        if scribe.rng.chance(50) {
            damaged_access(scribe, tables, &access, way);
        } else {
            perform(scribe, &access, way);
        }
        scribe.show_sometimes(2);
        let mut after = scribe.session.hart;
        if way == Way::Outside {
            // pc moves on with what is done.
            after.pc = hart.pc;
        }
        if after != hart {
            // A fault was delivered.
            scribe.whole_hart(&hart);
        }
    }
}

/// The same guest from outside: HS, M or, mostly with HU set, U. SPVP is mostly the guest's privilege; where MPRV is set, it is any.
fn outside(scribe: &mut Scribe, hart: &mut Hart) {
    let in_m = hart.checked_mode() == Some(Mode::M);
    let other = scribe.rng.chance(if in_m { 50 } else { 10 });
    let supervisor = user_translates(hart) == other;
    hart.hstatus = with_bit(hart.hstatus, SPVP, supervisor);
    hart.hstatus = with_bit(hart.hstatus, HU, scribe.rng.chance(80));
    if !in_m {
        let mode = scribe.rng.pick(&[Mode::Hs, Mode::Hs, Mode::U, Mode::M]);
        *hart = hart.in_mode(mode);
    }
}

/// A hart for a regime: in a mode that walks its tables, or in M with MPRV=1 and such a mode in MPP and MPV.
fn hart_for(scribe: &mut Scribe, tables: &Tables, regime: Regime) -> Hart {
    let mode = match regime {
        Regime::Host => scribe.rng.pick(&[Mode::U, Mode::Hs]),
        Regime::Guest | Regime::GuestPhysical => scribe.rng.pick(&[Mode::Vu, Mode::Vs]),
        Regime::Bare => scribe.mode(),
    };
    let mut hart = Hart::new(0, 0, 0).in_mode(mode);
    hart.pc = scribe.rng.below(0x1000) * 4;
    hart.satp = tables.satp;
    hart.vsatp = tables.vsatp;
    hart.hgatp = tables.hgatp;
    match regime {
        Regime::GuestPhysical => hart.vsatp = scribe.rng.bits() >> 4,
        Regime::Bare => {
            hart.satp = scribe.rng.bits() >> 4;
            hart.vsatp = scribe.rng.bits() >> 4;
            hart.hgatp = (scribe.rng.bits() >> 6) & !3;
        }
        Regime::Host | Regime::Guest => {}
    }
    hart.mstatus |= scribe.rng.bits() & ((1 << SUM) | (1 << MXR));
    hart.vsstatus |= scribe.rng.bits() & ((1 << SUM) | (1 << MXR));
    if scribe.rng.chance(20) {
        hart.mstatus |= scribe.rng.bits() & 0xc0_0070_01aa;
        let mpp = scribe.rng.pick(&[0, 1, 3]);
        hart.mstatus = with_mpp(hart.mstatus, mpp);
    }
    if scribe.rng.chance(30) {
        hart.medeleg = scribe.rng.pick(&[0xf0_b7ff, 0, 0xb100, 0xf0_0000]);
        hart.hedeleg = scribe.rng.pick(&[0xb1ff, 0, 0xb100]);
        hart.mtvec = 0x3000;
        hart.stvec = 0x2001;
        hart.vstvec = 0x1000;
    }
    if scribe.rng.chance(20) {
        through_mprv(scribe, &mut hart, mode);
    }
    hart
}

/// The same accesses from M: MPRV=1, and the mode in MPP and MPV. (With MPP=3, MPV is anything.)
fn through_mprv(scribe: &mut Scribe, hart: &mut Hart, mode: Mode) {
    *hart = hart.in_mode(Mode::M);
    let (mpp, mpv) = if scribe.rng.chance(10) {
        (3, scribe.rng.chance(70))
    } else {
        (mode.privilege(), mode.v())
    };
    hart.mstatus = with_mpp(hart.mstatus, mpp) & !(1 << MPV);
    hart.mstatus |= (1 << MPRV) | (u64::from(mpv) << MPV);
}

/// An access to a page of the regime: mostly one that suits the hart's privilege, at an aligned place.
fn choose_access(scribe: &mut Scribe, tables: &Tables, regime: Regime, way: Way) -> Access {
    let kind = scribe
        .rng
        .pick(&[Kind::Fetch, Kind::Load, Kind::Load, Kind::Store]);
    let width = match kind {
        Kind::Fetch if way == Way::Outside => scribe.rng.pick(&[2, 4]),
        Kind::Fetch => 4,
        _ => scribe.rng.pick(&[1, 2, 4, 8]),
    };
    let user = is_user(&scribe.session.hart, way);
    let page = match regime {
        Regime::Host => choose_page(scribe, &tables.host, user),
        Regime::Guest => choose_page(scribe, &tables.guest, user),
        Regime::GuestPhysical => choose_page(scribe, &tables.guest_physical, user),
        Regime::Bare => tables.base + (scribe.rng.below(tables.length >> 12) << 12),
    };
    let mut address = page + scribe.rng.below(4096 / width) * width;
    let mut width = width;
    match scribe.rng.below(60) {
        0 => address = (page | 0xfff) + 1 - width,
        1 if kind != Kind::Fetch => address = address.wrapping_add(1 + scribe.rng.below(7)),
        2 => address ^= 1 << (30 + scribe.rng.below(34)),
        3 => address ^= 1 << (12 + scribe.rng.below(18)),
        // Refused as 3, or misaligned.
        4 => {
            width = scribe
                .rng
                .pick(&[0, 1, 2, 3, 5, 8, 16, 32, 0x104, (1 << 32) + 4])
        }
        5 if kind == Kind::Fetch => address |= 1 + scribe.rng.below(3),
        _ => {}
    }
    Access {
        kind,
        address,
        width,
    }
}

/// Whether the accesses of a hart are a user's.
fn is_user(hart: &Hart, way: Way) -> bool {
    match way {
        Way::Translation => user_translates(hart),
        Way::Outside => !bit(hart.hstatus, SPVP),
    }
}

/// Whether the loads and stores of a hart are a user's.
pub fn user_translates(hart: &Hart) -> bool {
    let mode = hart.checked_mode();
    let effective = mode.map(|mode| walk::effective_mode(hart, mode, Kind::Load));
    matches!(effective, Some(Mode::U | Mode::Vu))
}

/// One of the pages, mostly one whose leaf suits a user or not.
pub fn choose_page(scribe: &mut Scribe, pages: &[Mapping], user: bool) -> u64 {
    if pages.is_empty() {
        return scribe.rng.bits() & !0xfff;
    }
    let mut chosen = scribe.rng.pick(pages);
    for _ in 0..3 {
        if (chosen.flags & U != 0) == user {
            break;
        }
        chosen = scribe.rng.pick(pages);
    }
    chosen.address
}

/// The line of an access.
pub fn text(access: &Access) -> String {
    let word = match access.kind {
        Kind::Fetch => "fetch",
        Kind::Load => "load",
        Kind::Store => "store",
    };
    format!("{word} {:x} {:x}", access.address, access.width)
}

/// An access, and sometimes the delivery of its fault.
fn perform(scribe: &mut Scribe, access: &Access, way: Way) {
    if way == Way::Outside {
        let access = from_outside(scribe, access);
        return reach(scribe, &access);
    }
    let answer = scribe.line(&text(access));
    let Answer::Translation(translation) = answer else {
        return;
    };
    if let walk::Answer::Fault(trap) = translation.answer {
        if scribe.rng.chance(12) {
            deliver(scribe, &trap);
        }
    }
}

/// The hypervisor load or store for an access.
fn from_outside(scribe: &mut Scribe, access: &Access) -> GuestAccess {
    GuestAccess {
        operation: match access.kind {
            Kind::Fetch => Operation::LoadExecutable,
            Kind::Load => Operation::Load {
                signed: scribe.rng.chance(50),
            },
            Kind::Store => Operation::Store {
                value: scribe.rng.number(),
            },
        },
        address: access.address,
        width: access.width,
    }
}

/// A hypervisor load or store. Where there is nothing to load, something is put there before; where an entry is stored over, it is put
/// back after another access, which may have walked it.
fn reach(scribe: &mut Scribe, access: &GuestAccess) {
    let hart = scribe.session.hart;
    let image = &scribe.session.image;
    let Walked { end, .. } = walk(&hart, image, &access.access(), access.manner(&hart));
    let word = end.ok().map(|machine| Machine(machine.0 & !7));
    let there = word.and_then(|word| Some((word, image.read(word)?)));
    let store = matches!(access.operation, Operation::Store { .. });
    if let (Some((word, 0)), false) = (there, store) {
        let value = scribe.rng.bits();
        scribe.put(word.0, value);
    }
    scribe.event(&guest::text(access));
    scribe.show_sometimes(8);
    let Some((word, old)) = there.filter(|_| store) else {
        return;
    };
    if scribe.session.image.read(word) == Some(old) {
        return;
    }
    let mut again = *access;
    if scribe.rng.chance(70) {
        (again.operation, again.width) = (Operation::Load { signed: false }, 8);
        again.address &= !7;
    }
    scribe.event(&guest::text(&again));
    if old != 0 {
        scribe.put(word.0, old);
    }
}

/// "a trap request delivers the fault".
fn deliver(scribe: &mut Scribe, trap: &Trap) {
    scribe.line(&format!(
        "trap {:x} {:x} {:x} {:x} {:x}",
        trap.cause,
        trap.value,
        trap.second,
        trap.word,
        u64::from(trap.flag)
    ));
    scribe.show();
    if scribe.rng.chance(40) {
        let back = scribe.rng.pick(&["sret", "mret", "sret", "mret", "ecall"]);
        scribe.event(back);
        scribe.show();
    }
}

// Damage.

/// The ways to damage an entry.
#[derive(Clone, Copy, PartialEq, Eq, Debug)]
enum Damage {
    NotValid,
    WriteWithoutRead,
    ReservedBit,
    PointerWith(u64),
    Pointer,
    LowPpn,
    NotAccessed,
    NotDirty,
    OtherUser,
    NotReadable,
    NotWritable,
    NotExecutable,
    ExecuteOnly,
    Leaf,
    OtherPage,
    AnyBit,
    AnyEntry,
    IgnoredBits,
}

const DAMAGES: [Damage; 24] = [
    Damage::NotValid,
    Damage::WriteWithoutRead,
    Damage::ReservedBit,
    Damage::PointerWith(A),
    Damage::PointerWith(D),
    Damage::PointerWith(U),
    Damage::Pointer,
    Damage::LowPpn,
    Damage::LowPpn,
    Damage::NotAccessed,
    Damage::NotAccessed,
    Damage::NotDirty,
    Damage::OtherUser,
    Damage::OtherUser,
    Damage::NotReadable,
    Damage::NotWritable,
    Damage::NotExecutable,
    Damage::ExecuteOnly,
    Damage::Leaf,
    Damage::OtherPage,
    Damage::OtherPage,
    Damage::AnyBit,
    Damage::AnyEntry,
    Damage::IgnoredBits,
];

/// An access whose tables, registers or address are damaged just for it.
fn damaged_access(scribe: &mut Scribe, tables: &Tables, access: &Access, way: Way) {
    match scribe.rng.below(20) {
        0 | 1 => with_other_register(scribe, tables, access, way),
        2 => {
            let high = 1 << (38 + scribe.rng.below(26));
            let address = access.address ^ high;
            perform(scribe, &Access { address, ..*access }, way);
        }
        _ => with_damaged_entry(scribe, tables, access, way),
    }
}

/// With another root or another MODE in satp, vsatp or hgatp.
fn with_other_register(scribe: &mut Scribe, tables: &Tables, access: &Access, way: Way) {
    let (number, old) = scribe.rng.pick(&[
        (registers::SATP, scribe.session.hart.satp),
        (registers::VSATP, scribe.session.hart.vsatp),
        (registers::HGATP, scribe.session.hart.hgatp),
    ]);
    let root = match scribe.rng.below(3) {
        0 => 1 << (41 + scribe.rng.below(15)),
        _ => tables.outside_page(scribe),
    };
    let other = if scribe.rng.chance(30) {
        // The same root with another MODE.
        with_field(old, 60, 4, scribe.rng.pick(&[0, 8, 9, 10]))
    } else {
        with_field(old, 0, 44, root >> 12)
    };
    let other = match find(number) {
        Some(row) => registers::after_write(row, old, other),
        None => old,
    };
    scribe.reg(number, other);
    perform(scribe, access, way);
    if scribe.session.hart.stored(number) == Some(other) {
        scribe.reg(number, old);
    }
}

/// With one entry of its walk damaged.
fn with_damaged_entry(scribe: &mut Scribe, tables: &Tables, access: &Access, way: Way) {
    let list = listed(scribe, access, way);
    if list.is_empty() {
        return perform(scribe, access, way);
    }
    let read = choose_entry(scribe, &list);
    let damage = scribe.rng.pick(&DAMAGES);
    let entry = damaged(scribe, tables, &read, damage);
    let access = match damage {
        // A guest entry is read, whatever the access is.
        Damage::NotReadable | Damage::ExecuteOnly if for_entry(&list, &read) => *access,
        _ => suited(scribe, access, damage, way),
    };
    scribe.put(read.address, entry);
    perform(scribe, &access, way);
    if scribe.rng.chance(15) {
        let other = choose_kind(scribe, &access, way);
        perform(scribe, &other, way);
    }
    if scribe.session.image.read(Machine(read.address)) != Some(read.value) {
        scribe.put(read.address, read.value);
    }
}

/// The list of an access.
fn listed(scribe: &mut Scribe, access: &Access, way: Way) -> Vec<Read> {
    let list = match way {
        Way::Translation => translate(&scribe.session.hart, &scribe.session.image, access).list,
        Way::Outside => {
            let access = from_outside(scribe, access);
            let (hart, image) = (&scribe.session.hart, &scribe.session.image);
            walk(hart, image, &access.access(), access.manner(hart)).list
        }
    };
    list.items().to_vec()
}

/// An entry of the list: half of the time a leaf, where most rules are.
fn choose_entry(scribe: &mut Scribe, items: &[Read]) -> Read {
    let leaves: Vec<Read> = items
        .iter()
        .copied()
        .filter(|read| read.value & (R | X) != 0)
        .collect();
    if leaves.is_empty() || scribe.rng.chance(40) {
        scribe.rng.pick(items)
    } else {
        scribe.rng.pick(&leaves)
    }
}

/// Whether an entry of the list is the second stage's on the way to a guest entry.
fn for_entry(items: &[Read], read: &Read) -> bool {
    let mut rest = items.iter().skip_while(|item| *item != read);
    read.stage == 2 && rest.any(|item| item.stage == 1)
}

/// The damaged entry.
fn damaged(scribe: &mut Scribe, tables: &Tables, read: &Read, damage: Damage) -> u64 {
    let entry = read.value;
    match damage {
        Damage::NotValid => entry & !V,
        Damage::WriteWithoutRead => (entry & !R) | W,
        Damage::ReservedBit => entry | (1 << (54 + scribe.rng.below(10))),
        Damage::PointerWith(flag) => (entry & !LEAF_BITS) | flag,
        Damage::Pointer => entry & !LEAF_BITS,
        Damage::LowPpn => large_leaf_with_low_ppn(scribe, read),
        Damage::NotAccessed => entry & !A,
        Damage::NotDirty => entry & !D,
        Damage::OtherUser => entry ^ U,
        Damage::NotReadable => entry & !(R | W),
        Damage::NotWritable => entry & !W,
        Damage::NotExecutable => entry & !X,
        Damage::ExecuteOnly => (entry & !(R | W)) | X | A,
        Damage::Leaf => entry | R | W | X | A | D | (scribe.rng.bits() & U),
        Damage::OtherPage => {
            let page = match scribe.rng.below(3) {
                0 => 1 << (41 + scribe.rng.below(15)),
                _ => tables.outside_page(scribe),
            };
            (entry & 0x3ff) | ((page >> 12) << 10)
        }
        Damage::AnyBit => entry ^ (1 << scribe.rng.below(64)),
        Damage::AnyEntry => scribe.rng.bits(),
        Damage::IgnoredBits => entry ^ (scribe.rng.bits() & (G | 0x300)),
    }
}

/// A leaf above level 0 whose page would not begin at a multiple of its size.
fn large_leaf_with_low_ppn(scribe: &mut Scribe, read: &Read) -> u64 {
    let low_bits = 9 * read.level;
    if low_bits == 0 {
        return read.value;
    }
    let as_leaf = read.value | R | X | A;
    as_leaf | (1 << (10 + scribe.rng.below(low_bits)))
}

/// The access that the damage is about: a store for D and W, a fetch for X, a load for R.
fn suited(scribe: &mut Scribe, access: &Access, damage: Damage, way: Way) -> Access {
    let kind = match damage {
        Damage::NotDirty | Damage::NotWritable => Kind::Store,
        Damage::NotExecutable => Kind::Fetch,
        Damage::NotReadable | Damage::ExecuteOnly => Kind::Load,
        _ => access.kind,
    };
    if scribe.rng.chance(75) {
        with_kind(access, kind, way)
    } else {
        *access
    }
}

/// Another kind of access to the same place.
fn choose_kind(scribe: &mut Scribe, access: &Access, way: Way) -> Access {
    let kind = scribe.rng.pick(&[Kind::Fetch, Kind::Load, Kind::Store]);
    with_kind(access, kind, way)
}

/// The same access with another kind; a fetch is one of 4 bytes at a multiple of 4, HLVX one of 2 or 4.
fn with_kind(access: &Access, kind: Kind, way: Way) -> Access {
    match kind {
        Kind::Fetch if way == Way::Outside && access.width == 2 => Access { kind, ..*access },
        Kind::Fetch => Access {
            kind,
            address: access.address & !3,
            width: 4,
        },
        _ => Access { kind, ..*access },
    }
}
