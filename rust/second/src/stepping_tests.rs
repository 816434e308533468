//! Tests of the second engine: press by press against the plain one, the refusals of a press and their order, presses past the end,
//! and places that no start made.

use std::collections::BTreeSet;

use super::*;
use crate::image::BadImage;
use crate::registers::{MPRV, MPV, SUM};
use crate::trap::Trap;
use crate::walk::tests::{
    deepest, entry, Tables, World, A, ALL_RIGHTS, BASE, D, DATA, KINDS, LENGTH, R, U, V, W, X,
};
use crate::walk::{translate, Kind, Part, Rule};

const DEPTHS: [u64; 4] = [0, 3, 4, 5];

/// The access that the tables of a world are made for.
fn access(world: &World, kind: Kind) -> Access {
    Access {
        kind,
        address: world.virtual_address() + DATA,
        width: 4,
    }
}

/// Tables of so many levels; none are Bare.
fn tables(levels: u64) -> Option<Tables> {
    (levels > 0).then(|| deepest(levels))
}

/// Each depth of the first stage with each of the second.
fn pairs_of_depths() -> impl Iterator<Item = [u64; 2]> {
    let over = |n| DEPTHS.into_iter().map(move |m| [n, m]);
    DEPTHS.into_iter().flat_map(over)
}

/// The place after so many accepted presses, none of which ends before the last.
fn after(world: &World, kind: Kind, presses: usize) -> Place {
    let mut place = start(&world.hart, &world.image, &access(world, kind));
    for _ in 0..presses {
        assert_eq!(place.end(), None);
        let pressed = press(&place, &world.image);
        assert_eq!(pressed.refusal, None);
        place = pressed.place;
    }
    place
}

fn next(place: &Place) -> Next {
    match place.state {
        State::Going(next) => next,
        State::Finished(end) => panic!("finished: {end:?}"),
    }
}

/// "After any number of accepted presses from a start its list is the first that many items of the plain engine's list, or all of it
/// if it is shorter; it is finished with the last item (at the start if there is none) [...] and its end answer is the plain
/// engine's." The finished place.
fn as_the_plain_engine(world: &World, access: &Access) -> Place {
    let plain = translate(&world.hart, &world.image, access);
    let mut place = start(&world.hart, &world.image, access);
    let mut list = List::default();
    for item in plain.list.items() {
        assert_eq!((place.end(), place.list), (None, list));
        let pressed = press(&place, &world.image);
        assert_eq!((pressed.shown, pressed.refusal), (Some(*item), None));
        list.places[list.count] = *item;
        list.count += 1;
        place = pressed.place;
    }
    let end = End {
        answer: plain.answer,
        reason: plain.reason(),
    };
    assert_eq!((place.end(), place.list), (Some(end), plain.list));
    place
}

// Press by press.

#[test]
fn each_pair_of_depths_and_each_level_of_leaves() {
    let all: Vec<Option<Tables>> = Tables::all().map(Some).chain([None]).collect();
    let mut longest = 0;
    for first in &all {
        for second in &all {
            let world = World::new(Mode::Vu, *first, *second);
            for kind in KINDS {
                let place = as_the_plain_engine(&world, &access(&world, kind));
                assert_eq!(place.list.items(), world.items());
                let reached = Answer::Address(Machine(BASE + DATA));
                assert_eq!(place.end().map(|end| end.answer), Some(reached));
                longest = longest.max(place.list.count);
            }
        }
        let world = World::new(Mode::U, *first, None);
        as_the_plain_engine(&world, &access(&world, Kind::Store));
    }
    // "by the thirty-fifth press at the latest"
    assert_eq!(longest, 35);
}

/// What stands in place of an entry, for each rule about one and each way to go on.
fn changes(sound: u64) -> Vec<u64> {
    let outside = 0xff_ffff_ffff_f000;
    let flags = [V, R, W, X, U, A, D, R | W, R | X, R | W | X];
    let mut changes: Vec<u64> = flags.map(|flag| sound ^ flag).to_vec();
    changes.extend([0, u64::MAX, sound | 1 << 54, sound | 1 << 10]);
    changes.extend([V, ALL_RIGHTS].map(|flags| entry(outside, flags)));
    changes.extend([V, ALL_RIGHTS, V | X | A | U].map(|flags| entry(BASE, flags)));
    changes
}

/// Every entry of every walk changed in each of these ways: both engines end alike, by each rule in each part.
#[test]
fn each_entry_changed() {
    let mut kinds = KINDS.into_iter().cycle();
    let mut rules = BTreeSet::new();
    for mode in [Mode::U, Mode::Hs, Mode::Vu, Mode::Vs] {
        for [n, m] in pairs_of_depths() {
            let mut world = World::new(mode, tables(n), tables(m));
            world.hart.vsstatus |= 1 << SUM;
            let sound = as_the_plain_engine(&world, &access(&world, Kind::Load));
            for item in sound.list.items() {
                for (change, kind) in changes(item.value).into_iter().zip(&mut kinds) {
                    world.image.put(Machine(item.address), change);
                    let place = as_the_plain_engine(&world, &access(&world, kind));
                    if let Some(Reason::Fault(why)) = place.reason() {
                        rules.insert((why.rule, why.part));
                    }
                }
                world.image.put(Machine(item.address), item.value);
            }
        }
    }
    for part in [
        Part::Satp,
        Part::Vsatp,
        Part::HgatpForEntry,
        Part::HgatpForAccess,
    ] {
        for rule in [
            Rule::EntryOutside,
            Rule::NotValid,
            Rule::WriteWithoutRead,
            Rule::ReservedBits,
            Rule::PointerWithA,
            Rule::PointerWithD,
            Rule::PointerWithU,
            Rule::PointerAtLevelZero,
            Rule::LargeLeafLowPpn,
            Rule::NotAccessed,
            Rule::NotUser,
            Rule::NotReadable,
        ] {
            assert!(rules.contains(&(rule, part)), "{rule:?} {part:?}");
        }
    }
    for part in [Part::Satp, Part::Vsatp, Part::HgatpForAccess] {
        for rule in [Rule::NotDirty, Rule::NotWritable, Rule::NotExecutable] {
            assert!(rules.contains(&(rule, part)), "{rule:?} {part:?}");
        }
    }
    for key in [
        (Rule::AccessOutside, Part::Access),
        (Rule::SupervisorFetch, Part::Vsatp),
        (Rule::SupervisorNeedsSum, Part::Satp),
        (Rule::HighBits(41), Part::HgatpForEntry),
        (Rule::HighBits(50), Part::HgatpForAccess),
    ] {
        assert!(rules.contains(&key), "{key:?}");
    }
}

/// From M by MPRV the effective mode counts, and a fetch is M's own.
#[test]
fn mprv() {
    for first in DEPTHS {
        let mut world = World::new(Mode::Vu, tables(first), tables(4));
        world.hart = world.hart.in_mode(Mode::M);
        world.hart.mstatus |= (1 << MPRV) | (1 << MPV);
        for kind in KINDS {
            let place = as_the_plain_engine(&world, &access(&world, kind));
            assert_eq!(place.list.count == 0, kind == Kind::Fetch);
        }
    }
}

/// "it is finished with the last item (at the start if there is none)": no stage is on, or the first entry can't be read.
#[test]
fn finished_at_the_start() {
    let both = || World::new(Mode::Vu, tables(3), tables(3));
    let bare = World::new(Mode::Vs, None, None);
    let machine = World::new(Mode::M, tables(3), tables(3));
    let mut root_outside = both();
    root_outside.hart.hgatp = (8 << 60) | 0x4_0000;
    let mut guest_root_high = both();
    guest_root_high.hart.vsatp = (8 << 60) | (1 << 29);
    let mut guest_root_outside = World::new(Mode::Vu, tables(3), None);
    guest_root_outside.hart.vsatp = (8 << 60) | 0x4_0000;
    for (world, address, rule, part) in [
        (bare.clone(), BASE + DATA, None, Part::Access),
        (machine, BASE + DATA, None, Part::Access),
        (bare, 0, Some(Rule::AccessOutside), Part::Access),
        (both(), 2, Some(Rule::Misaligned), Part::Access),
        (both(), 1 << 38, Some(Rule::HighBits(39)), Part::Vsatp),
        (
            World::new(Mode::Vs, None, tables(3)),
            1 << 41,
            Some(Rule::HighBits(41)),
            Part::HgatpForAccess,
        ),
        (
            guest_root_high,
            0,
            Some(Rule::HighBits(41)),
            Part::HgatpForEntry,
        ),
        (
            root_outside,
            0,
            Some(Rule::EntryOutside),
            Part::HgatpForEntry,
        ),
        (guest_root_outside, 0, Some(Rule::EntryOutside), Part::Vsatp),
    ] {
        let access = Access {
            kind: Kind::Load,
            address,
            width: 4,
        };
        let place = as_the_plain_engine(&world, &access);
        assert_eq!(place.list, List::default());
        let why = match place.reason() {
            Some(Reason::Fault(why)) => Some((why.rule, why.part)),
            other => {
                assert_eq!(other, None);
                None
            }
        };
        assert_eq!(why, rule.map(|rule| (rule, part)));
    }
}

/// The place on the way through both stages of three levels: which stage, which levels, what the second stage is for, and where the
/// entry is.
#[test]
fn where_a_place_stands() {
    let world = World::new(Mode::Vu, tables(3), tables(3));
    let items = world.items();
    for (presses, item) in items.iter().enumerate() {
        let next = next(&after(&world, Kind::Load, presses));
        // Three entries of the second stage before each of the first, and three at the end.
        let first_level = 2u64.saturating_sub(presses as u64 / 4);
        let expected = match (presses, presses % 4) {
            (12.., _) => (2, 0, Purpose::Access),
            (_, 3) => (1, first_level, Purpose::Access),
            _ => (2, first_level, Purpose::GuestEntry),
        };
        assert_eq!((next.stage, next.first_level, next.purpose), expected);
        assert_eq!((item.stage, item.level), (next.stage, next.level()));
        assert_eq!((next.entry, next.mode), (Machine(item.address), Mode::Vu));
        assert_eq!(next.guest == GuestPhysical(0), next.stage == 1);
    }
}

/// "The image must not change between presses", but where it does a press goes by what it reads: an entry shown isn't read again, and
/// one to come not before its press.
#[test]
fn an_image_that_changes() {
    let world = World::new(Mode::Vu, tables(3), tables(3));
    let plain = world.items();
    for (presses, next) in plain.iter().enumerate() {
        let place = after(&world, Kind::Load, presses);
        let mut without_shown = world.image.clone();
        for item in &plain[..presses] {
            if item.address != next.address {
                without_shown.put(Machine(item.address), 0);
            }
        }
        let pressed = press(&place, &without_shown);
        assert_eq!(pressed, press(&place, &world.image));
        let mut without_next = world.image.clone();
        without_next.put(Machine(next.address), 0);
        let pressed = press(&place, &without_next);
        assert_eq!(pressed.shown, Some(Read { value: 0, ..*next }));
        let Some(Reason::Fault(why)) = pressed.reason() else {
            panic!("no fault: {pressed:?}");
        };
        assert_eq!(why.rule, Rule::NotValid);
        // What was shown stays as it was.
        assert_eq!(pressed.place.list.items()[..presses], plain[..presses]);
    }
}

// Refusals.

/// Places at each part of a walk: before its first press, at the guest's root, midway, before the last press, and finished; and the
/// place of a refused start.
fn places() -> (World, Vec<Place>) {
    let world = World::new(Mode::Vu, tables(3), tables(3));
    let mut places: Vec<Place> = [0, 3, 6, 14, 15]
        .map(|presses| after(&world, Kind::Load, presses))
        .to_vec();
    let wrong_width = Access {
        width: 3,
        ..access(&world, Kind::Load)
    };
    places.push(start(&world.hart, &world.image, &wrong_width));
    (world, places)
}

/// A press on this image is refused by this: "the place, with its list, is unchanged and nothing is shown".
fn refused(place: &Place, image: &Image, refusal: Refusal) {
    let expected = Pressed {
        place: *place,
        shown: None,
        refusal: Some(refusal),
    };
    assert_eq!(press(place, image), expected);
    assert_eq!(expected.reason(), Some(Reason::Refused(refusal)));
}

#[test]
fn refusal_1_comes_before_refusal_6() {
    let (world, places) = places();
    let image = |base, length| Image {
        base,
        bytes: vec![0; length],
    };
    let bad = [
        (image(BASE, 0x400_1000), BadImage::TooLarge(0x400_1000)),
        (image(BASE + 8, LENGTH), BadImage::Base(BASE + 8)),
        (
            image(BASE, LENGTH - 8),
            BadImage::Length(LENGTH as u128 - 8),
        ),
        (
            image(1 << 56, LENGTH),
            BadImage::End((1 << 56) + LENGTH as u128),
        ),
    ];
    for mut place in places {
        let sound = press(&place, &world.image);
        for (image, why) in &bad {
            refused(&place, image, Refusal::Image(*why));
        }
        // The place goes on as if nothing had been.
        assert_eq!(press(&place, &world.image), sound);
        // Also where all else is wrong.
        place.list.count = usize::MAX;
        for (image, why) in &bad {
            refused(&place, image, Refusal::Image(*why));
        }
    }
}

#[test]
fn refusal_6_by_the_image() {
    let (world, places) = places();
    let (base, length) = (BASE, LENGTH as u128);
    for place in places {
        let sound = press(&place, &world.image);
        assert_eq!(sound.refusal, None);
        for (other_base, other_length) in [
            (0, length),
            (base + 0x1000, length),
            (base - 0x1000, length),
            (base, 0),
            (base, length + 0x1000),
            (base, length - 0x1000),
            (base + 0x1000, length - 0x1000),
        ] {
            let mut image = world.image.clone();
            image.base = other_base;
            image.bytes.resize(other_length as usize, 0);
            let why = if other_base != base {
                BadPlace::Base {
                    image: other_base,
                    place: base,
                }
            } else {
                BadPlace::Length {
                    image: other_length,
                    place: length,
                }
            };
            refused(&place, &image, Refusal::Place(why));
        }
        assert_eq!(press(&place, &world.image), sound);
    }
}

/// The place of a start that was refused as 1 is of an image that every press is refused for: as 1, and another image's as 6.
#[test]
fn a_start_on_a_bad_image() {
    let mut world = World::new(Mode::Vu, tables(3), tables(3));
    world.image.base += 8;
    let access = access(&world, Kind::Load);
    let place = as_the_plain_engine(&world, &access);
    let why = BadImage::Base(BASE + 8);
    refused(&place, &world.image, Refusal::Image(why));
    world.image.base -= 8;
    let why = BadPlace::Base {
        image: BASE,
        place: BASE + 8,
    };
    refused(&place, &world.image, Refusal::Place(why));
}

/// "A start that the plain engine refuses is finished at once, with that refusal as its end answer": in the order 2, 1, 3.
#[test]
fn refused_starts() {
    for which in 0..8 {
        let [bad_hart, bad_image, bad_access] = [1, 2, 4].map(|bit| which & bit != 0);
        let mut world = World::new(Mode::Vu, tables(3), tables(3));
        let access = Access {
            width: if bad_access { 3 } else { 4 },
            ..access(&world, Kind::Load)
        };
        world.hart.hgatp |= u64::from(bad_hart);
        world.image.base += u64::from(bad_image);
        let place = as_the_plain_engine(&world, &access);
        let number = match place.end().map(|end| end.answer) {
            Some(Answer::Refused(number)) => number,
            _ => 0,
        };
        let expected = match (bad_hart, bad_image, bad_access) {
            (true, _, _) => 2,
            (_, true, _) => 1,
            (_, _, true) => 3,
            _ => 0,
        };
        assert_eq!(number, expected);
    }
}

/// "Any other press after the end changes and shows nothing", and answers the end answer again: of an address, of a fault, of a refused
/// start, and where there was nothing to read.
#[test]
fn presses_past_the_end() {
    let world = World::new(Mode::Vu, tables(5), tables(5));
    let sound = access(&world, Kind::Load);
    let mut without_leaf = world.clone();
    let leaf = world.items()[34].address;
    without_leaf.image.put(Machine(leaf), 0);
    for (world, access, count) in [
        (&world, sound, 35),
        (&without_leaf, sound, 35),
        (&world, Access { width: 3, ..sound }, 0),
        (&world, Access { width: 8, ..sound }, 35),
        (
            &world,
            Access {
                address: sound.address + 2,
                ..sound
            },
            0,
        ),
    ] {
        let place = as_the_plain_engine(world, &access);
        assert_eq!(place.list.count, count);
        let mut empty = world.image.clone();
        empty.bytes.fill(0);
        for image in [&world.image, &empty, &world.image] {
            let unchanged = Pressed {
                place,
                shown: None,
                refusal: None,
            };
            assert_eq!(press(&place, image), unchanged);
            assert_eq!(unchanged.reason(), place.reason());
        }
    }
}

// Places that no start made.

/// What a press on a place with another state is refused by.
fn with_next(place: &Place, image: &Image, change: impl Fn(&mut Next)) -> Option<BadPlace> {
    let mut changed = *place;
    let mut next = next(place);
    change(&mut next);
    changed.state = State::Going(next);
    let pressed = press(&changed, image);
    match pressed.refusal {
        None => {
            assert!(pressed.place.list.count <= place.list.count + 1);
            None
        }
        Some(Refusal::Place(why)) => {
            refused(&changed, image, Refusal::Place(why));
            Some(why)
        }
        Some(other) => panic!("{other:?}"),
    }
}

/// "a count over 35, or an unfinished place whose count is 35".
#[test]
fn refusal_6_by_the_count() {
    let (world, places) = places();
    for mut place in places {
        let limit = if place.end().is_none() { 34 } else { 35 };
        for count in [0, 1, 33, 34, 35, 36, 100, usize::MAX] {
            place.list.count = count;
            if count <= limit {
                let pressed = press(&place, &world.image);
                assert_eq!(pressed.refusal, None, "{count}");
                let shown = usize::from(place.end().is_none());
                assert_eq!(pressed.place.list.count, count + shown);
                assert_eq!(pressed.shown.is_some(), place.end().is_none());
            } else {
                let why = BadPlace::Count { count, limit };
                refused(&place, &world.image, Refusal::Place(why));
            }
        }
    }
}

/// "whose stage isn't 1 or 2": one that isn't finished.
#[test]
fn refusal_6_by_the_stage() {
    let (world, places) = places();
    for place in places.iter().filter(|place| place.end().is_none()) {
        for stage in [0, 3, 4, 1 << 32, (1 << 32) + 1, u64::MAX] {
            let why = with_next(place, &world.image, |next| next.stage = stage);
            assert_eq!(why, Some(BadPlace::Stage(stage)));
        }
    }
}

/// "where a level still being walked isn't below its mode's depth": the first stage's and the second's for a guest entry, the first's
/// alone at the entry itself, the second's alone for the access.
#[test]
fn refusal_6_by_a_level() {
    for [n, m] in pairs_of_depths() {
        let world = World::new(Mode::Vu, tables(n), tables(m));
        for presses in 0..world.items().len() {
            let place = after(&world, Kind::Load, presses);
            let Next { stage, purpose, .. } = next(&place);
            let walks_first = stage == 1 || purpose == Purpose::GuestEntry;
            for level in [0, 1, 2, 3, 4, 5, 6, u64::MAX] {
                let too_high = |stage, depth| BadPlace::Level {
                    stage,
                    level,
                    depth,
                };
                let why = with_next(&place, &world.image, |next| next.first_level = level);
                let refused = walks_first && level >= n;
                assert_eq!(why, refused.then_some(too_high(1, n)));
                let why = with_next(&place, &world.image, |next| next.second_level = level);
                let refused = stage == 2 && level >= m;
                assert_eq!(why, refused.then_some(too_high(2, m)));
            }
        }
    }
}

/// "Bare's depth is 0": a stage that is off has no level. V=0 walks satp alone, M no stage.
#[test]
fn refusal_6_by_a_stage_that_is_off() {
    let both = World::new(Mode::Vu, tables(3), tables(3));
    let level = |stage| BadPlace::Level {
        stage,
        level: 2,
        depth: 0,
    };
    for (presses, in_m, in_u, vsatp_bare, hgatp_bare) in [
        (0, Some(1), Some(1), Some(1), Some(2)),
        (3, Some(1), Some(1), Some(1), None),
        (12, Some(2), Some(2), None, Some(2)),
    ] {
        let place = after(&both, Kind::Load, presses);
        let by_mode = |mode| with_next(&place, &both.image, |next| next.mode = mode);
        assert_eq!(by_mode(Mode::M), in_m.map(level));
        assert_eq!(by_mode(Mode::U), in_u.map(level));
        assert_eq!(by_mode(Mode::Vs), None);
        for (bare, expected) in [
            (
                Hart {
                    vsatp: 0,
                    ..both.hart
                },
                vsatp_bare,
            ),
            (
                Hart {
                    hgatp: 0,
                    ..both.hart
                },
                hgatp_bare,
            ),
        ] {
            let changed = Place {
                hart: bare,
                ..place
            };
            let refusal = expected.map(level).map(Refusal::Place);
            assert_eq!(press(&changed, &both.image).refusal, refusal);
        }
    }
}

/// An entry outside the image is an access fault, and not shown, also where it is next.
#[test]
fn a_place_at_an_entry_outside() {
    let (world, places) = places();
    for place in places.iter().filter(|place| place.end().is_none()) {
        for entry in [0, BASE - 1, BASE + LENGTH as u64 - 7, u64::MAX] {
            let mut changed = *place;
            let State::Going(next) = &mut changed.state else {
                panic!("finished");
            };
            next.entry = Machine(entry);
            let pressed = press(&changed, &world.image);
            assert_eq!((pressed.shown, pressed.refusal), (None, None));
            assert_eq!(pressed.place.list, place.list);
            let fault = Trap {
                cause: 5,
                value: place.access.address,
                flag: true,
                ..Trap::default()
            };
            let answer = pressed.place.end().map(|end| end.answer);
            assert_eq!(answer, Some(Answer::Fault(fault)));
        }
    }
}
