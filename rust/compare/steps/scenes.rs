//! Walks one entry at a time, pressed to their end and once more: everything that starts and presses can come to. And walks through any
//! tables, with the image, the hart and the place changed between presses.

use second::bits::with_bit;
use second::hart::{Hart, Mode};
use second::registers::{with_mpp, MPRV, MPV, MXR, SUM};
use second::walk::{effective_mode, translate, Access, Key, Part, Read, Rule, PLACES};

use crate::coverage::depths::{Depths, TRANSLATIONS};
use crate::coverage::stepping::{all, By, Case, Changed, State, Way, Writer, CHECKED};
use crate::scenes::depths::translation;
use crate::scenes::refusals::illegal_hart;
use crate::scenes::traps::BARE_EVENTS;
use crate::scenes::walks::{any_access, any_damage, choose_entry, text};
use crate::scenes::words::any_form;
use crate::scenes::world::{pairs, Shape, Spoilt, Walking, World, ALL_RIGHTS, DATA, LENGTH};
use crate::scenes::{guest, world};
use crate::scribe::Scribe;
use crate::tables::{Tables, G, R, W};

/// A start of this access.
fn start(scribe: &mut Scribe, access: &Access) {
    scribe.line(&format!("start {}", text(access)));
}

fn press(scribe: &mut Scribe) {
    scribe.line("press");
}

/// Whether there is a place that is not finished.
fn is_going(scribe: &Scribe) -> bool {
    let place = &scribe.session.place;
    place.is_some_and(|place| place.end().is_none())
}

/// Presses to the end, and once more.
fn press_to_the_end(scribe: &mut Scribe) {
    for _ in 0..PLACES {
        if is_going(scribe) {
            press(scribe);
        }
    }
    press(scribe);
}

/// A new image of zero bytes.
fn blank(scribe: &mut Scribe, (base, length): (u64, u64)) {
    scribe.line(&format!("image {base:x} {length:x}"));
}

/// The base and the length of an image on which a press is refused in this way. This base is a multiple of 128 KiB, and this length one
/// of 4096.
fn unfit(scribe: &mut Scribe, way: Way, (base, length): (u64, u64)) -> (u64, u64) {
    let some = 8 * (1 + scribe.rng.below(511));
    let pages = (1 + scribe.rng.below(16)) << 12;
    match way {
        Way::TooLarge => (base, 0x400_0000 + scribe.rng.pick(&[8, 0x1000])),
        Way::Base => (base + some, length),
        Way::Length => (base, length + some),
        Way::End => ((1 << 56) - 0x1000, length.max(0x2000)),
        Way::OtherBase => (base ^ (1 << 16), length),
        Way::OtherLength => (base, length + pages),
        Way::OtherBoth => (base ^ (1 << 16), length + pages),
    }
}

/// A store by the hart, of these eight bytes.
fn store(scribe: &mut Scribe, address: u64, value: u64) {
    let mode = scribe.rng.pick(&[Mode::Hs, Mode::M]);
    scribe.hart(mode, 0);
    let store = world::store(value, address, 8);
    scribe.event(&guest::text(&store));
}

/// An entry with other bits among those that the walk ignores.
fn with_ignored_bits(scribe: &mut Scribe, entry: u64) -> u64 {
    entry ^ scribe.rng.pick(&[G, 0x100, 0x200, 0x300 | G])
}

// Everything that starts and presses can come to.

/// Everything that they can come to.
pub fn all_in_turn(scribe: &mut Scribe) {
    for (first, second) in pairs() {
        let world = World::build(scribe, first, second);
        for case in all() {
            if !scribe.coverage.stepping.has(&case) {
                world.attempt_step(scribe, case);
            }
        }
    }
    for case in all() {
        if let Case::Order { event, bad } = case {
            order(scribe, event, bad);
        }
    }
}

/// The hart, the image and the access bad or not, and presses behind the start.
fn order(scribe: &mut Scribe, event: &str, [hart, image, access]: [bool; 3]) {
    let base = if image { 0x8000_0008 } else { 0x8000_0000 };
    blank(scribe, (base, 0x1000));
    let mode = scribe.mode();
    scribe.hart(mode, if hart { 2 } else { 0 });
    let mut refused = translation(scribe, event, base);
    if access {
        refused.width = scribe.rng.pick(&[0, 3, 7, 16]);
    }
    start(scribe, &refused);
    press(scribe);
}

/// What an entry of a walk is for a place after so many presses.
fn change_of(items: &[Read], presses: usize, read: &Read) -> Changed {
    let (shown, ahead) = items.split_at(presses);
    let has = |items: &[Read]| items.iter().any(|item| item.address == read.address);
    match (has(shown), has(ahead)) {
        (true, true) => Changed::Again,
        (true, false) => Changed::Behind(read.stage),
        (false, _) if has(&ahead[..1]) => Changed::Next(read.stage),
        (false, _) => Changed::Ahead(read.stage),
    }
}

impl World {
    /// Makes a case of starts and presses happen, if it is one that this world can have.
    fn attempt_step(&self, scribe: &mut Scribe, case: Case) {
        let [first_on, second_on] = self.stages();
        match case {
            Case::Length { event, length } if (self.depth(1), self.depth(2)) == (Some(5), Some(5)) => {
                let spoilt = self.of_every_length(scribe, event).into_iter();
                let mut lengths = spoilt.filter(|spoilt| list(scribe, spoilt).len() == length);
                if let Some(spoilt) = lengths.next() {
                    step(scribe, &spoilt);
                }
            }
            Case::Longest { event, depths } if self.has_depths(depths) => {
                let unspoilt = self.unspoilt(scribe, event, matches!(depths, Depths::Guest(..)));
                if list(scribe, &unspoilt).len() as u64 == depths.longest() {
                    step(scribe, &unspoilt);
                }
            }
            Case::Leaf {
                part,
                levels,
                level,
            } => {
                let leaf = level;
                if self.shape_of(part) == Some(Shape { levels, leaf }) {
                    let event = scribe.rng.pick(&TRANSLATIONS);
                    let unspoilt = self.unspoilt(scribe, event, part != Part::Satp);
                    step(scribe, &unspoilt);
                }
            }
            Case::Fault { event, by, key } => self.step_fault(scribe, event, by, key),
            Case::From {
                event,
                mode,
                by_mprv,
            } => self.step_from(scribe, event, mode, by_mprv),
            Case::Refused { way, state } | Case::WentOn { way, state } if first_on => {
                self.refuse(scribe, way, state);
            }
            Case::Image { by, changed } if first_on && second_on => {
                self.change(scribe, by, changed);
            }
            Case::Kept { what } if first_on => self.keep(scribe, what),
            Case::Between { word } if first_on => {
                self.stand(scribe, State::Going, self.extent());
                self.event_between(scribe, word);
                press_to_the_end(scribe);
            }
            Case::Over { state } if first_on => {
                let image = scribe.session.image.clone();
                let refused = unfit(scribe, Way::Base, self.extent());
                self.stand(scribe, state, refused);
                if state == State::Refused(1) {
                    scribe.whole_image(&image);
                }
                let unspoilt = self.unspoilt(scribe, "load", true);
                step(scribe, &unspoilt);
            }
            _ => {}
        }
    }

    /// The base and the length of its image.
    fn extent(&self) -> (u64, u64) {
        (self.base, LENGTH)
    }

    /// An access to the page of data, with V=1 or 0.
    fn unspoilt(&self, scribe: &mut Scribe, event: &str, v: bool) -> Spoilt {
        let hart = self.walking_hart(scribe, v);
        let address = self.data(scribe);
        let event = Walking::Translation(translation(scribe, event, address));
        Spoilt {
            hart,
            event,
            entry: None,
        }
    }

    /// A walk that ends by this rule, settled so, if one of this world can.
    fn step_fault(&self, scribe: &mut Scribe, event: &str, by: By, key: Key) {
        let (rule, part, _) = key;
        if part == Part::Satp && self.second.is_some() {
            return;
        }
        let unspoilt = self.unspoilt(scribe, event, part != Part::Satp);
        let spoilt = match (rule, by) {
            (Rule::HighBits(bits), By::Press) => self.leading_too_high(scribe, unspoilt, bits, part),
            _ => self.spoilt(scribe, unspoilt.hart, unspoilt.event, key),
        };
        let Some(spoilt) = spoilt else {
            return;
        };
        let nothing_read = list(scribe, &spoilt).is_empty();
        if nothing_read == (by == By::Start) {
            step(scribe, &spoilt);
        }
    }

    /// An entry of the first stage that leads to a guest physical address of more than so many bits: of a table, or of the access.
    fn leading_too_high(
        &self,
        scribe: &mut Scribe,
        unspoilt: Spoilt,
        bits: u32,
        part: Part,
    ) -> Option<Spoilt> {
        let items = list(scribe, &unspoilt);
        let mut entries = items.iter().filter(|read| read.stage == 1);
        let read = match part {
            Part::HgatpForAccess => entries.next_back(),
            // The last one is the leaf.
            _ => entries.rev().nth(1),
        }?;
        let high = bits + scribe.rng.below(56 - u64::from(bits)) as u32;
        let entry = Some((read.address, read.value | (1 << (high - 2))));
        let spoilt = Spoilt { entry, ..unspoilt };
        let key = (Rule::HighBits(bits), part, None);
        (spoilt.ends_by(scribe) == Some(key)).then_some(spoilt)
    }

    /// A walk from this mode, or by MPRV.
    fn step_from(
        &self,
        scribe: &mut Scribe,
        event: &str,
        mode: Mode,
        by_mprv: Option<(u64, bool)>,
    ) {
        let mut spoilt = self.unspoilt(scribe, event, true);
        let hart = &mut spoilt.hart;
        *hart = hart.in_mode(mode);
        if let Some((mpp, mpv)) = by_mprv {
            hart.mstatus = with_bit(with_mpp(hart.mstatus, mpp), MPV, mpv) | (1 << MPRV);
        }
        // The guest's tables are the host's too where there is no second stage.
        if self.second.is_none() {
            hart.satp = hart.vsatp;
        }
        let access = access_of(&spoilt);
        let in_m = effective_mode(&spoilt.hart, mode, access.kind) == Mode::M;
        let nothing_read = list(scribe, &spoilt).is_empty();
        if nothing_read == in_m {
            step(scribe, &spoilt);
        }
    }

    /// Makes a place that stands so. One that was refused as 1 has an image of this base and length.
    fn stand(&self, scribe: &mut Scribe, state: State, refused: (u64, u64)) {
        let event = scribe.rng.pick(&TRANSLATIONS);
        let Spoilt { mut hart, event, .. } = self.unspoilt(scribe, event, true);
        let Walking::Translation(mut access) = event else {
            return;
        };
        match state {
            State::Going | State::Address => {}
            State::Fault if scribe.rng.chance(50) => access.address = self.address(LENGTH),
            State::Fault => hart.vsatp ^= 1 << 43,
            State::Refused(1) => blank(scribe, refused),
            State::Refused(2) => hart.pc |= 2,
            State::Refused(_) => access.width = 3,
        }
        scribe.whole_hart(&hart);
        start(scribe, &access);
        let reads = translate(&hart, &scribe.session.image, &access).list.count;
        let presses = match state {
            State::Going => scribe.rng.below(reads as u64) as usize,
            _ => reads,
        };
        for _ in 0..presses {
            press(scribe);
        }
    }

    /// A place that stands so, a press on an image on which it is refused in this way, and behind it presses on the image of its start.
    fn refuse(&self, scribe: &mut Scribe, way: Way, state: State) {
        let image = scribe.session.image.clone();
        let refused = match way {
            Way::OtherLength => Way::Length,
            _ => Way::Base,
        };
        let refused = unfit(scribe, refused, self.extent());
        self.stand(scribe, state, refused);
        let other = unfit(scribe, way, self.extent());
        blank(scribe, other);
        for _ in 0..1 + scribe.rng.below(2) {
            press(scribe);
        }
        scribe.whole_image(&image);
        press_to_the_end(scribe);
    }

    /// A walk during which the image is changed so, and which is pressed to its end.
    fn change(&self, scribe: &mut Scribe, by: Writer, changed: Changed) {
        let unspoilt = self.unspoilt(scribe, "load", true);
        let items = list(scribe, &unspoilt);
        let presses = 0..items.len();
        let choices = presses.flat_map(|presses| items.iter().map(move |read| (presses, *read)));
        let choices: Vec<(usize, Read)> = match changed {
            Changed::Elsewhere => choices.collect(),
            _ => choices
                .filter(|(presses, read)| change_of(&items, *presses, read) == changed)
                .collect(),
        };
        if choices.is_empty() {
            return;
        }
        let (presses, mut read) = scribe.rng.pick(&choices);
        let entry = match changed {
            Changed::Elsewhere => {
                read.address = self.base + DATA + 0x800;
                scribe.rng.bits()
            }
            Changed::Behind(_) => 0,
            _ => with_ignored_bits(scribe, read.value),
        };
        scribe.whole_hart(&unspoilt.hart);
        start(scribe, &access_of(&unspoilt));
        for _ in 0..presses {
            press(scribe);
        }
        let image = scribe.session.image.clone();
        match by {
            Writer::Put => scribe.put(read.address, entry),
            Writer::Hsv => store(scribe, read.address, entry),
            Writer::Image => blank(scribe, self.extent()),
        }
        press_to_the_end(scribe);
        scribe.whole_image(&image);
    }

    /// A walk whose place keeps this of the hart, while it becomes another one with which the walk would come to something else.
    fn keep(&self, scribe: &mut Scribe, what: &str) {
        let host = matches!(what, "satp" | "mstatus.SUM");
        let second_on = self.second.is_some();
        if (host && second_on) || (what == "hgatp" && !second_on) {
            return;
        }
        let mut spoilt = self.unspoilt(scribe, "load", !host);
        let hart = &mut spoilt.hart;
        let by_mprv = with_mpp(hart.mstatus, 0) | (1 << MPRV) | (1 << MPV);
        match what {
            "privilege" => hart.vsstatus = with_bit(hart.vsstatus, SUM, false),
            "mstatus.SUM" => {
                *hart = hart.in_mode(Mode::Hs);
                hart.mstatus |= 1 << SUM;
            }
            "vsstatus.SUM" => *hart = hart.in_mode(Mode::Vs),
            "mstatus.MXR" => *hart = world::with_mxr(*hart, [false, true]),
            "vsstatus.MXR" => *hart = world::with_mxr(*hart, [true, false]),
            "mstatus.MPRV" | "mstatus.MPP" | "mstatus.MPV" => {
                *hart = hart.in_mode(Mode::M);
                hart.mstatus = by_mprv;
                hart.vsstatus = with_bit(hart.vsstatus, SUM, false);
            }
            _ => {}
        }
        if what.ends_with("MXR") {
            spoilt.entry = Some(self.leaf(1, DATA, ALL_RIGHTS & !(R | W)));
        }
        let other = changed_hart(scribe, &spoilt.hart, what);
        let reads = list(scribe, &spoilt).len();
        let old = spoilt.prepare(scribe);
        start(scribe, &access_of(&spoilt));
        for _ in 0..scribe.rng.below(2).min(reads as u64 - 1) {
            press(scribe);
        }
        scribe.whole_hart(&other);
        press_to_the_end(scribe);
        if let Some((place, old)) = old {
            scribe.put(place, old);
        }
    }

    /// An event with this word.
    fn event_between(&self, scribe: &mut Scribe, word: &str) {
        let address = self.data(scribe);
        let line = match word {
            "fetch" | "load" | "store" => text(&translation(scribe, word, address)),
            "trap" => "trap 3 0 0 0 1".to_string(),
            "read" | "write" | "set" | "clear" => any_form(scribe, word, 0x140),
            _ => any_form(scribe, word, address),
        };
        scribe.event(&line);
    }
}

/// A hart in which this alone is another.
fn changed_hart(scribe: &mut Scribe, hart: &Hart, what: &str) -> Hart {
    let mut hart = *hart;
    match what {
        "V" => hart.v ^= 1,
        "privilege" => hart.privilege ^= 1,
        "mstatus.SUM" => hart.mstatus ^= 1 << SUM,
        "mstatus.MXR" => hart.mstatus ^= 1 << MXR,
        "mstatus.MPRV" => hart.mstatus ^= 1 << MPRV,
        "mstatus.MPP" => hart.mstatus = with_mpp(hart.mstatus, 1),
        "mstatus.MPV" => hart.mstatus ^= 1 << MPV,
        "vsstatus.SUM" => hart.vsstatus ^= 1 << SUM,
        "vsstatus.MXR" => hart.vsstatus ^= 1 << MXR,
        "satp" => hart.satp = other_atp(scribe, hart.satp),
        "vsatp" => hart.vsatp = other_atp(scribe, hart.vsatp),
        "hgatp" => hart.hgatp = other_atp(scribe, hart.hgatp),
        CHECKED => hart.pc |= 2,
        _ => {}
    }
    hart
}

/// Bare, or another root, of a satp, vsatp or hgatp.
fn other_atp(scribe: &mut Scribe, atp: u64) -> u64 {
    scribe.rng.pick(&[0, atp ^ 0x4000])
}

/// The access of a walk, which is a translation's.
fn access_of(spoilt: &Spoilt) -> Access {
    match spoilt.event {
        Walking::Translation(access) => access,
        Walking::Outside(access) => access.access(),
    }
}

/// The list of a walk.
fn list(scribe: &mut Scribe, spoilt: &Spoilt) -> Vec<Read> {
    let walked = spoilt.walked(scribe);
    walked.map_or(Vec::new(), |walked| walked.list.items().to_vec())
}

/// A walk one entry at a time, to its end and once more. The entry that spoils it is put back.
fn step(scribe: &mut Scribe, spoilt: &Spoilt) {
    let old = spoilt.prepare(scribe);
    start(scribe, &access_of(spoilt));
    press_to_the_end(scribe);
    if let Some((place, old)) = old {
        scribe.put(place, old);
    }
}

// Walks through any tables.

/// An image with tables, and some walks through them.
pub fn steps(scribe: &mut Scribe) {
    let tables = Tables::build(scribe);
    for _ in 0..6 {
        let access = any_access(scribe, &tables);
        let list = translate(&scribe.session.hart, &scribe.session.image, &access).list;
        let damaged = (list.count > 0 && scribe.rng.chance(40))
            .then(|| choose_entry(scribe, list.items()));
        if let Some(read) = damaged {
            let entry = any_damage(scribe, &tables, &read);
            scribe.put(read.address, entry);
        }
        start(scribe, &access);
        walk_on(scribe, &tables);
        if let Some(read) = damaged {
            scribe.put(read.address, read.value);
        }
    }
}

/// Presses to the end and beyond, with something else now and then. Some walks are left before their end.
fn walk_on(scribe: &mut Scribe, tables: &Tables) {
    for _ in 0..PLACES + 5 {
        if scribe.rng.chance(12) {
            disturb(scribe, tables);
        }
        let left = if is_going(scribe) { 3 } else { 60 };
        if scribe.rng.chance(left) {
            return;
        }
        press(scribe);
    }
}

/// Something between two presses.
fn disturb(scribe: &mut Scribe, tables: &Tables) {
    match scribe.rng.below(12) {
        0..=4 => change_entry(scribe, tables),
        5 => {
            let mode = scribe.mode();
            let hart = scribe.legal_hart(mode);
            scribe.whole_hart(&hart);
        }
        6 => illegal_hart(scribe),
        7 | 8 => change_image(scribe),
        9 => {
            let word = scribe.rng.pick(&BARE_EVENTS);
            scribe.event(word);
        }
        10 => {
            let access = any_access(scribe, tables);
            scribe.line(&text(&access));
        }
        _ => {
            let access = any_access(scribe, tables);
            start(scribe, &access);
        }
    }
}

/// An entry of the place's walk written, mostly the one that is next, or any eight bytes of the image.
fn change_entry(scribe: &mut Scribe, tables: &Tables) {
    let Some(place) = scribe.session.place else {
        return;
    };
    let image = &scribe.session.image;
    let (base, length) = (image.base, image.bytes.len() as u64);
    let list = translate(&place.hart, image, &place.access).list;
    let next = list.items().get(place.list.count).copied();
    let read = match (next, list.items()) {
        (Some(next), _) if scribe.rng.chance(50) => next,
        (_, items @ [_, ..]) if scribe.rng.chance(80) => choose_entry(scribe, items),
        _ => Read {
            address: base + 8 * scribe.rng.below(length / 8),
            ..Read::default()
        },
    };
    let entry = match scribe.rng.below(3) {
        0 => any_damage(scribe, tables, &read),
        1 => 0,
        _ => with_ignored_bits(scribe, read.value),
    };
    if scribe.rng.chance(60) {
        scribe.put(read.address, entry);
    } else {
        store(scribe, read.address, entry);
    }
}

/// Presses on another image; then mostly the one that was there comes back, or one of the same base and length.
fn change_image(scribe: &mut Scribe) {
    let image = scribe.session.image.clone();
    let extent = (image.base, image.bytes.len() as u64);
    let way = scribe.rng.pick(&Way::ALL);
    let other = unfit(scribe, way, extent);
    blank(scribe, other);
    for _ in 0..1 + scribe.rng.below(2) {
        press(scribe);
    }
    if scribe.rng.chance(90) {
        scribe.whole_image(&image);
    } else {
        blank(scribe, extent);
    }
}
