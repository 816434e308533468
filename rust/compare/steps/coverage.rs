//! What starts and presses reached (request 2026-07): places of each length pressed to their end, what they ended with and when, each
//! fault rule that a start or a press can settle, refused presses and what came after them, images, harts and other events between
//! presses.
//!
//! What a press must come to is worked out here by the plain engine, over the image with the entries put back that were shown. A place
//! that came out otherwise counts for nothing from there on.

use std::borrow::Cow;
use std::collections::{BTreeMap, BTreeSet};
use std::fmt::Write as _;

use second::address::Machine;
use second::bits::{bit, with_bit};
use second::hart::{Hart, Mode};
use second::hypervisor::Operation;
use second::image::{BadImage, Image};
use second::registers::{mpp, with_mpp, MPRV, MPV, MXR, SUM};
use second::script::{Answer, Line};
use second::stepping::{Place, Pressed};
use second::walk::{self, effective_mode, translate, Access, Key, Part, Read, Rule, Translation};

use super::depths::{depths, leaves, Depths, PARTS, TRANSLATIONS};
use super::guest::{has_mprv, meet};
use super::{add, count, ending_rules, event_word, kind_word, table_of_kinds, Before, WORDS};
use crate::tables::DEPTHS;

/// What settles the end of a place.
#[derive(Clone, Copy, Debug, PartialEq, Eq, PartialOrd, Ord)]
pub enum By {
    /// Its start: it has nothing to read.
    Start,
    /// The press that shows the last item.
    Press,
}

/// What a place ended with: a fault by its cause, a refusal by its number.
#[derive(Clone, Copy, Debug, PartialEq, Eq, PartialOrd, Ord)]
#[allow(missing_docs)] // The names say it.
pub enum End {
    Address,
    Fault(u64),
    Refused(u64),
}

impl From<walk::Answer> for End {
    fn from(answer: walk::Answer) -> End {
        match answer {
            walk::Answer::Address(_) => End::Address,
            walk::Answer::Fault(trap) => End::Fault(trap.cause),
            walk::Answer::Refused(number) => End::Refused(number),
        }
    }
}

/// How a place stands: it goes on, or what it ended with.
#[derive(Clone, Copy, Debug, PartialEq, Eq, PartialOrd, Ord)]
#[allow(missing_docs)] // The names say it.
pub enum State {
    Going,
    Address,
    Fault,
    Refused(u64),
}

/// All of them.
pub const STATES: [State; 6] = [
    State::Going,
    State::Address,
    State::Fault,
    State::Refused(2),
    State::Refused(3),
    State::Refused(1),
];

/// Why a press is refused.
#[derive(Clone, Copy, Debug, PartialEq, Eq, PartialOrd, Ord)]
pub enum Way {
    /// As 1: the image is too large.
    TooLarge,
    /// As 1: its base is no multiple of 4096.
    Base,
    /// As 1: its length is none.
    Length,
    /// As 1: it ends too high.
    End,
    /// As 6: its base is another one than at the start.
    OtherBase,
    /// As 6: its length is.
    OtherLength,
    /// As 6: both are.
    OtherBoth,
}

impl Way {
    /// All of them.
    pub const ALL: [Way; 7] = [
        Way::TooLarge,
        Way::Base,
        Way::Length,
        Way::End,
        Way::OtherBase,
        Way::OtherLength,
        Way::OtherBoth,
    ];

    /// The refusal's number.
    fn number(self) -> u64 {
        match self {
            Way::TooLarge | Way::Base | Way::Length | Way::End => 1,
            Way::OtherBase | Way::OtherLength | Way::OtherBoth => 6,
        }
    }
}

/// What changed the image between two presses.
#[derive(Clone, Copy, Debug, PartialEq, Eq, PartialOrd, Ord)]
#[allow(missing_docs)] // The names say it.
pub enum Writer {
    Put,
    Hsv,
    /// `image` or `file`, with the same base and length.
    Image,
}

/// What it changed, with the entry's stage.
#[derive(Clone, Copy, Debug, PartialEq, Eq, PartialOrd, Ord)]
pub enum Changed {
    /// The entry that was next, which the next press showed as it had become.
    Next(u64),
    /// One further ahead, which a later press showed so.
    Ahead(u64),
    /// One that was shown; the place went on by what it had been.
    Behind(u64),
    /// One that was shown, and that a later press showed again as it had become.
    Again,
    /// No entry of the walk.
    Elsewhere,
}

/// What starts and presses can reach. `event` is the word of the access.
#[derive(Clone, Copy, Debug, PartialEq, Eq, PartialOrd, Ord)]
#[allow(missing_docs)] // The fields carry the names of what they say.
pub enum Case {
    /// So many reads, one a press, in an image that stayed as it was.
    Length { event: &'static str, length: usize },
    /// An address, after as many reads as there can be.
    Longest { event: &'static str, depths: Depths },
    /// An address, through a leaf of this level in tables of so many levels.
    Leaf { part: Part, levels: u64, level: u64 },
    /// An end answer, when it was settled, or `again` by a press behind the end.
    Ended {
        event: &'static str,
        by: By,
        again: bool,
        end: End,
    },
    /// A fault by this rule.
    Fault {
        event: &'static str,
        by: By,
        key: Key,
    },
    /// A start that was refused with the hart, the image and the access bad or not.
    Order { event: &'static str, bad: [bool; 3] },
    /// A start from this mode, with MPRV by these MPP and MPV, which reads entries unless its effective mode is M.
    From {
        event: &'static str,
        mode: Mode,
        by_mprv: Option<(u64, bool)>,
    },
    /// A refused press on a place that stood so.
    Refused { way: Way, state: State },
    /// A press behind it that was not refused: the place had stayed as it was.
    WentOn { way: Way, state: State },
    /// The image changed between two presses.
    Image { by: Writer, changed: Changed },
    /// This alone of the hart changed between the start and the end, where it would have come to something else.
    Kept { what: &'static str },
    /// An event between two presses.
    Between { word: &'static str },
    /// A start over a place that stood so, pressed to its end.
    Over { state: State },
    /// A press before any start, which is a bad line.
    NoPlace,
}

/// What a place keeps of the hart, and how one hart takes it from another.
pub const KEPT: [(&str, fn(&mut Hart, &Hart)); 12] = [
    ("V", |hart, from| hart.v = from.v),
    ("privilege", |hart, from| hart.privilege = from.privilege),
    ("mstatus.SUM", |hart, from| {
        take_bit(&mut hart.mstatus, from.mstatus, SUM)
    }),
    ("mstatus.MXR", |hart, from| {
        take_bit(&mut hart.mstatus, from.mstatus, MXR)
    }),
    ("mstatus.MPRV", |hart, from| {
        take_bit(&mut hart.mstatus, from.mstatus, MPRV)
    }),
    ("mstatus.MPP", |hart, from| {
        hart.mstatus = with_mpp(hart.mstatus, mpp(from.mstatus))
    }),
    ("mstatus.MPV", |hart, from| {
        take_bit(&mut hart.mstatus, from.mstatus, MPV)
    }),
    ("vsstatus.SUM", |hart, from| {
        take_bit(&mut hart.vsstatus, from.vsstatus, SUM)
    }),
    ("vsstatus.MXR", |hart, from| {
        take_bit(&mut hart.vsstatus, from.vsstatus, MXR)
    }),
    ("satp", |hart, from| hart.satp = from.satp),
    ("vsatp", |hart, from| hart.vsatp = from.vsatp),
    ("hgatp", |hart, from| hart.hgatp = from.hgatp),
];

/// That the hart passed check 2: a later one does not.
pub const CHECKED: &str = "check 2";

fn take_bit(register: &mut u64, from: u64, place: u32) {
    *register = with_bit(*register, place, bit(from, place));
}

/// A hart with all of that from another one.
fn with_all_kept(hart: &Hart, from: &Hart) -> Hart {
    let mut hart = *hart;
    for (_, take) in KEPT {
        take(&mut hart, from);
    }
    hart
}

/// Whether a start can settle this fault: the address or the entry that it is about comes before any read.
fn start_settles((rule, _, level): &Key) -> bool {
    match rule {
        Rule::Misaligned | Rule::HighBits(_) | Rule::AccessOutside => true,
        // That of a root.
        Rule::EntryOutside => *level >= Some(2),
        _ => false,
    }
}

/// Whether a press can settle this fault.
fn press_settles((rule, part, level): &Key) -> bool {
    let second = matches!(part, Part::HgatpForEntry | Part::HgatpForAccess);
    match rule {
        Rule::Misaligned => false,
        // An entry leads to an address of 56 bits.
        Rule::HighBits(bits) => second && *bits < 56,
        // A root of level 4 comes first of all, but for the guest's behind the second stage; of the second stage's, addresses of
        // 56 bits find one page.
        Rule::EntryOutside => *part == Part::Vsatp || *level < Some(4),
        _ => true,
    }
}

/// The causes that end a place by a fault, by the word of the access: of a misaligned address, an access fault, a page fault and a
/// guest-page fault.
fn causes_of(event: &str) -> (Option<u64>, [u64; 3]) {
    match event {
        "fetch" => (None, [1, 12, 20]),
        "load" => (Some(4), [5, 13, 21]),
        _ => (Some(6), [7, 15, 23]),
    }
}

/// All cases.
pub fn all() -> Vec<Case> {
    let mut all = vec![Case::NoPlace];
    for event in TRANSLATIONS {
        all.extend((0..=walk::PLACES).map(|length| Case::Length { event, length }));
        all.extend(all_depths().map(|depths| Case::Longest { event, depths }));
        all.extend(end_cases(event));
        all.extend(from_cases(event));
        let bad = (1..8u32).map(|setting| [1, 2, 4].map(|place| setting & place != 0));
        all.extend(bad.map(|bad| Case::Order { event, bad }));
    }
    for part in PARTS {
        for levels in DEPTHS {
            let levels_of_leaves = 0..levels;
            all.extend(levels_of_leaves.map(|level| Case::Leaf {
                part,
                levels,
                level,
            }));
        }
    }
    all.extend(fault_cases());
    all.extend(refused_cases());
    all.extend(image_cases());
    let kept = KEPT.iter().map(|(what, _)| *what).chain([CHECKED]);
    all.extend(kept.map(|what| Case::Kept { what }));
    all.extend(other_words().map(|word| Case::Between { word }));
    all.extend(STATES.map(|state| Case::Over { state }));
    all
}

/// Each depth of satp, and each pair of vsatp and hgatp.
fn all_depths() -> impl Iterator<Item = Depths> {
    let each = || DEPTHS.into_iter().map(Some).chain([None]);
    let guest = each().flat_map(move |first| each().map(move |second| Depths::Guest(first, second)));
    each().map(Depths::Host).chain(guest)
}

fn end_cases(event: &'static str) -> Vec<Case> {
    let (misaligned, causes) = causes_of(event);
    let by_both = causes.map(End::Fault).into_iter().chain([End::Address]);
    let by_start = misaligned.map(End::Fault).into_iter();
    let by_start = by_start.chain([1, 2, 3].map(End::Refused));
    let by_start = by_start.chain(by_both.clone()).map(|end| (By::Start, end));
    let ends = by_start.chain(by_both.map(|end| (By::Press, end)));
    let mut cases = Vec::new();
    for (by, end) in ends {
        // On the image that the start was refused for a press is refused itself.
        let again: &[bool] = match end {
            End::Refused(1) => &[false],
            _ => &[false, true],
        };
        cases.extend(again.iter().map(|again| Case::Ended {
            event,
            by,
            again: *again,
            end,
        }));
    }
    cases
}

fn from_cases(event: &'static str) -> Vec<Case> {
    let by_mprv = [0, 1, 3].map(|mpp| [false, true].map(|mpv| Some((mpp, mpv))));
    let by_mprv = by_mprv.into_iter().flatten().map(|by| (Mode::M, by));
    let modes = Mode::ALL.map(|mode| (mode, None)).into_iter();
    let from = modes.chain(by_mprv);
    from.map(|(mode, by_mprv)| Case::From {
        event,
        mode,
        by_mprv,
    })
    .collect()
}

fn fault_cases() -> Vec<Case> {
    let mut cases = Vec::new();
    for (event, key) in ending_rules() {
        for (by, settles) in [
            (By::Start, start_settles(&key)),
            (By::Press, press_settles(&key)),
        ] {
            if settles {
                cases.push(Case::Fault { event, by, key });
            }
        }
    }
    cases
}

fn refused_cases() -> Vec<Case> {
    let mut cases = Vec::new();
    for way in Way::ALL {
        for state in STATES {
            cases.push(Case::Refused { way, state });
            // No press on the image of that start is taken.
            if state != State::Refused(1) {
                cases.push(Case::WentOn { way, state });
            }
        }
    }
    cases
}

fn image_cases() -> Vec<Case> {
    let mut cases = Vec::new();
    for by in [Writer::Put, Writer::Hsv] {
        for stage in [1, 2] {
            let changes = [Changed::Next, Changed::Ahead, Changed::Behind];
            cases.extend(changes.map(|changed| Case::Image {
                by,
                changed: changed(stage),
            }));
        }
        let changes = [Changed::Again, Changed::Elsewhere];
        cases.extend(changes.map(|changed| Case::Image { by, changed }));
    }
    let by = Writer::Image;
    cases.extend([1, 2].map(|stage| Case::Image {
        by,
        changed: Changed::Next(stage),
    }));
    cases
}

/// The words of the events that are neither a start nor a press.
pub fn other_words() -> impl Iterator<Item = &'static str> {
    let stepping = |word: &&str| matches!(*word, "start" | "press");
    WORDS.into_iter().filter(move |word| !stepping(word))
}

/// The kind of a case, for the table.
fn kind(case: &Case) -> &'static str {
    match case {
        Case::Length { .. } => "lengths by event",
        Case::Longest { .. } => "pairs of depths stepped whole",
        Case::Leaf { .. } => "leaves by part, depth and level",
        Case::Ended { .. } => "end answers",
        Case::Fault { .. } => "fault rules by event, part and level",
        Case::Order { .. } => "orders of refusals",
        Case::From { .. } => "modes and MPRV",
        Case::Refused { .. } => "refused presses",
        Case::WentOn { .. } => "presses behind them",
        Case::Image { .. } => "changes of the image",
        Case::Kept { .. } => "of the hart",
        Case::Between { .. } => "events between",
        Case::Over { .. } => "starts over places",
        Case::NoPlace => "presses before any start",
    }
}

/// An entry ahead that was written.
#[derive(Clone, Copy, Debug, PartialEq, Eq)]
struct Written {
    by: Writer,
    changed: Changed,
    address: u64,
    old: u64,
}

/// A place as it must be.
#[derive(Clone, Debug, PartialEq, Eq)]
struct Followed {
    event: &'static str,
    hart: Hart,
    access: Access,
    /// The base and the length of the image at the start.
    image: (u64, u64),
    /// The list so far.
    shown: Vec<Read>,
    /// What the plain engine comes to over the image with the entries put back that were shown.
    plain: Translation,
    /// What settled its end.
    settled: Option<By>,
    /// How the place stood that was there before.
    over: Option<State>,
    /// Whether the image has stayed as it was.
    same_image: bool,
    /// The entries ahead that were written since.
    written: Vec<Written>,
    /// Other changes of the image.
    changes: BTreeSet<(Writer, Changed)>,
    /// The ways of the presses refused since the last one that was not.
    refused: BTreeSet<Way>,
    /// The events since the last press.
    between: BTreeSet<&'static str>,
}

/// The base and the length of an image.
fn extent(image: &Image) -> (u64, u64) {
    (image.base, image.bytes.len() as u64)
}

impl Followed {
    fn new(access: &Access, hart: &Hart, image: &Image, over: Option<State>) -> Followed {
        let plain = translate(hart, image, access);
        Followed {
            event: kind_word(access.kind),
            hart: *hart,
            access: *access,
            image: extent(image),
            shown: Vec::new(),
            plain,
            settled: plain.list.items().is_empty().then_some(By::Start),
            over,
            same_image: true,
            written: Vec::new(),
            changes: BTreeSet::new(),
            refused: BTreeSet::new(),
            between: BTreeSet::new(),
        }
    }

    fn state(&self) -> State {
        match (self.settled, self.plain.answer) {
            (None, _) => State::Going,
            (_, walk::Answer::Address(_)) => State::Address,
            (_, walk::Answer::Fault(_)) => State::Fault,
            (_, walk::Answer::Refused(number)) => State::Refused(number),
        }
    }

    /// Why a press on this image must be refused.
    fn unfit(&self, image: &Image) -> Option<Way> {
        let (base, length) = extent(image);
        match image.refusal() {
            Some(BadImage::TooLarge(_)) => Some(Way::TooLarge),
            Some(BadImage::Base(_)) => Some(Way::Base),
            Some(BadImage::Length(_)) => Some(Way::Length),
            Some(BadImage::End(_)) => Some(Way::End),
            None => match (base == self.image.0, length == self.image.1) {
                (true, true) => None,
                (false, true) => Some(Way::OtherBase),
                (true, false) => Some(Way::OtherLength),
                (false, false) => Some(Way::OtherBoth),
            },
        }
    }

    /// The image with the entries put back that were shown.
    fn with_shown<'a>(&self, image: &'a Image) -> Cow<'a, Image> {
        let mut image = Cow::Borrowed(image);
        for read in &self.shown {
            let place = Machine(read.address);
            if image.read(place) != Some(read.value) {
                image.to_mut().put(place, read.value);
            }
        }
        image
    }

    /// What the plain engine comes to from here; none where it does not come here, since an entry that was shown twice had changed.
    fn plain_from_here(&self, image: &Image) -> Option<Translation> {
        let plain = translate(&self.hart, &self.with_shown(image), &self.access);
        let place = |read: &Read| (read.stage, read.level, read.address);
        let shown = self.shown.iter().map(place);
        let comes_here = plain.list.items().iter().map(place).take(self.shown.len());
        comes_here.eq(shown).then_some(plain)
    }

    /// The item that the next press must show.
    fn next(&self, image: &Image) -> Option<Read> {
        let next = self.plain.list.items().get(self.shown.len())?;
        let value = image.read(Machine(next.address))?;
        Some(Read { value, ..*next })
    }

    /// Whether a place of the model stands so.
    fn is_at(&self, place: &Place) -> bool {
        let end = self.settled.map(|_| (self.plain.answer, self.plain.reason()));
        place.end().map(|end| (end.answer, end.reason)) == end
    }

    /// Notes that these bytes of the image were written. False where the place can't be followed any more.
    fn note_write(&mut self, by: Writer, bytes: (u64, u64), image: &Image) -> bool {
        self.same_image = false;
        if self.settled.is_some() {
            return true;
        }
        let mut elsewhere = true;
        let (behind, ahead) = self.plain.list.items().split_at(self.shown.len());
        let is_written = |read: &&Read| meet(bytes, (read.address, 8));
        for (place, read) in ahead.iter().enumerate().filter(|(_, read)| is_written(read)) {
            elsewhere = false;
            let again = behind.iter().any(|shown| shown.address == read.address);
            let changed = match place {
                _ if again => Changed::Again,
                0 => Changed::Next(read.stage),
                _ => Changed::Ahead(read.stage),
            };
            self.written.push(Written {
                by,
                changed,
                address: read.address,
                old: read.value,
            });
        }
        for read in behind.iter().filter(is_written) {
            elsewhere = false;
            if ahead.iter().all(|later| later.address != read.address) {
                self.changes.insert((by, Changed::Behind(read.stage)));
            }
        }
        if elsewhere {
            self.changes.insert((by, Changed::Elsewhere));
        }
        let plain = self.plain_from_here(image);
        self.plain = plain.unwrap_or(self.plain);
        plain.is_some()
    }
}

/// Counts of what starts and presses reached.
#[derive(Clone, Debug, Default, PartialEq, Eq)]
pub struct Stepping {
    /// The cases.
    pub cases: BTreeMap<Case, u64>,
    place: Option<Box<Followed>>,
}

impl Stepping {
    /// Whether a case was reached.
    pub fn has(&self, case: &Case) -> bool {
        self.cases.contains_key(case)
    }

    fn reach(&mut self, case: Case) {
        count(&mut self.cases, case);
    }

    /// Notes a line of a script, what it met, its answer, and the image behind it.
    pub fn note(&mut self, line: &Line, before: &Before, answer: &Answer, image: &Image) {
        match (line, answer) {
            (Line::Start(access), Answer::Started(place)) => {
                self.note_start(access, before, place, image);
            }
            (Line::Press, Answer::Pressed(pressed)) => self.note_press(before, pressed, image),
            (Line::Put { address, .. }, _) => self.note_write(Writer::Put, (*address, 8), image),
            (Line::Image { .. } | Line::File { .. }, _) => {
                self.note_write(Writer::Image, extent(image), image);
            }
            (Line::Guest { access, .. }, Answer::Guest(reached)) => {
                let stores = matches!(access.operation, Operation::Store { .. });
                if let Some(machine) = reached.machine.filter(|_| stores) {
                    self.note_write(Writer::Hsv, (machine.0, access.width), image);
                }
                self.note_between(line);
            }
            _ => self.note_between(line),
        }
    }

    /// Notes a bad line that ends a script.
    pub fn note_bad(&mut self, line: &[u8]) {
        if line == b"press" {
            self.reach(Case::NoPlace);
        }
    }

    fn note_between(&mut self, line: &Line) {
        if let (Some(place), Some(word)) = (&mut self.place, event_word(line)) {
            place.between.insert(word);
        }
    }

    fn note_write(&mut self, by: Writer, bytes: (u64, u64), image: &Image) {
        let Some(place) = &mut self.place else {
            return;
        };
        // The bytes of another image are not the place's.
        if place.image == extent(image) && !place.note_write(by, bytes, image) {
            self.place = None;
        }
    }

    fn note_start(&mut self, access: &Access, before: &Before, place: &Place, image: &Image) {
        let over = self.place.take().map(|place| place.state());
        let started = Followed::new(access, &before.hart, image, over);
        if !started.is_at(place) {
            return;
        }
        if let walk::Answer::Refused(_) = started.plain.answer {
            let event = started.event;
            let bad = [
                before.hart.checked_mode().is_none(),
                !before.image_taken,
                access.refusal().is_some(),
            ];
            self.reach(Case::Order { event, bad });
        }
        self.note_end(&started, &before.hart, image);
        self.place = Some(Box::new(started));
    }

    fn note_press(&mut self, before: &Before, pressed: &Pressed, image: &Image) {
        let Some(mut place) = self.place.take() else {
            return;
        };
        let state = place.state();
        let refusal = pressed.refusal.map(|refusal| refusal.number());
        if let Some(way) = place.unfit(image) {
            if (refusal, pressed.shown) == (Some(way.number()), None) {
                self.reach(Case::Refused { way, state });
                place.refused.insert(way);
                self.place = Some(place);
            }
            return;
        }
        let next = place.next(image);
        if (refusal, pressed.shown) != (None, next) {
            return;
        }
        if let Some(read) = next {
            place.shown.push(read);
            let Some(plain) = place.plain_from_here(image) else {
                return;
            };
            place.plain = plain;
            let last = plain.list.count == place.shown.len();
            place.settled = last.then_some(By::Press);
        }
        if !place.is_at(&pressed.place) {
            return;
        }
        for way in std::mem::take(&mut place.refused) {
            self.reach(Case::WentOn { way, state });
        }
        match (next, place.settled) {
            (Some(read), _) => self.note_shown(&mut place, &read, before, image),
            (None, Some(by)) => self.reach(Case::Ended {
                event: place.event,
                by,
                again: true,
                end: place.plain.answer.into(),
            }),
            (None, None) => {}
        }
        self.place = Some(place);
    }

    /// Notes an item that a press showed.
    fn note_shown(&mut self, place: &mut Followed, read: &Read, before: &Before, image: &Image) {
        for word in std::mem::take(&mut place.between) {
            self.reach(Case::Between { word });
        }
        let (of_this, others) = std::mem::take(&mut place.written)
            .into_iter()
            .partition(|written| written.address == read.address);
        place.written = others;
        for Written {
            by, changed, old, ..
        } in of_this
        {
            if old != read.value {
                self.reach(Case::Image { by, changed });
            }
        }
        if place.settled.is_some() {
            self.note_end(place, &before.hart, image);
        }
    }

    /// Notes the end of a place, if it is finished.
    fn note_end(&mut self, place: &Followed, present: &Hart, image: &Image) {
        let (Some(by), event) = (place.settled, place.event) else {
            return;
        };
        self.reach(Case::Ended {
            event,
            by,
            again: false,
            end: place.plain.answer.into(),
        });
        if let Some(why) = place.plain.why {
            let key = why.key();
            self.reach(Case::Fault { event, by, key });
        }
        if place.same_image {
            let length = place.shown.len();
            self.reach(Case::Length { event, length });
        }
        if let Some(state) = place.over {
            self.reach(Case::Over { state });
        }
        if let Some(mode) = place.hart.checked_mode() {
            self.note_mode(place, by, mode);
        }
        self.note_changes(place, image);
        self.note_kept(place, present, image);
    }

    /// Notes the mode that a place started in, and the tables that it went through.
    fn note_mode(&mut self, place: &Followed, by: By, mode: Mode) {
        let Followed {
            event,
            hart,
            access,
            plain,
            ..
        } = place;
        let effective = effective_mode(hart, mode, access.kind);
        if (effective == Mode::M) == (by == By::Start) {
            let (mpp, mpv) = (mpp(hart.mstatus), bit(hart.mstatus, MPV));
            let by_mprv = has_mprv(hart).then_some((mpp, mpv));
            self.reach(Case::From {
                event,
                mode,
                by_mprv,
            });
        }
        let address = matches!(plain.answer, walk::Answer::Address(_));
        let Some(depths) = depths(hart, effective).filter(|_| address) else {
            return;
        };
        if place.shown.len() as u64 == depths.longest() {
            self.reach(Case::Longest { event, depths });
        }
        for (part, leaf) in leaves(&place.shown, depths) {
            if let Some(levels) = depths.of(part) {
                let level = leaf.level;
                self.reach(Case::Leaf {
                    part,
                    levels,
                    level,
                });
            }
        }
    }

    /// Notes the other changes of the image: those behind where a walk of the image as it is comes to something else.
    fn note_changes(&mut self, place: &Followed, image: &Image) {
        if place.changes.is_empty() {
            return;
        }
        let now = translate(&place.hart, image, &place.access);
        let differs = now.answer != place.plain.answer || now.list.items() != place.shown;
        for (by, changed) in place.changes.iter().copied() {
            if changed == Changed::Elsewhere || differs {
                self.reach(Case::Image { by, changed });
            }
        }
    }

    /// Notes what alone has changed of the hart, where a walk of the hart as it is comes to something else.
    fn note_kept(&mut self, place: &Followed, present: &Hart, image: &Image) {
        if present.checked_mode().is_none() && place.hart.checked_mode().is_some() {
            return self.reach(Case::Kept { what: CHECKED });
        }
        let hart = &place.hart;
        if with_all_kept(present, hart) == *present {
            return;
        }
        let now = translate(present, &place.with_shown(image), &place.access);
        if (now.answer, now.list) == (place.plain.answer, place.plain.list) {
            return;
        }
        for (what, take) in KEPT {
            let mut back = *present;
            take(&mut back, hart);
            if with_all_kept(&back, hart) == back {
                self.reach(Case::Kept { what });
            }
        }
    }

    /// Adds another's counts.
    pub fn add(&mut self, other: &Stepping) {
        add(&mut self.cases, &other.cases);
    }

    /// What must be reached and was not.
    pub fn missing(&self) -> Vec<String> {
        let missing = all().into_iter().filter(|case| !self.has(case));
        missing
            .map(|case| format!("of starts and presses: {case:?}"))
            .collect()
    }

    /// The counts, for people.
    pub fn table(&self, text: &mut String) {
        let kinds = table_of_kinds(all().iter().map(|case| (kind(case), self.has(case))));
        let _ = writeln!(text, "starts and presses: {kinds}");
    }
}
