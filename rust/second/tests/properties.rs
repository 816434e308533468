//! What holds of every event, tried on many random harts: legal ones and any numbers at all.

use second::access::{access, Action};
use second::address::{GuestPhysical, Machine};
use second::calls::{ebreak, ecall};
use second::hart::{Hart, Mode};
use second::hypervisor::{reach, GuestAccess, Operation};
use second::image::Image;
use second::interrupts::{interrupt, Why};
use second::reasons::Reason;
use second::registers::{after_write, ROWS};
use second::returns::{mret, sret};
use second::stepping::{press, start, End, Next, Place, Pressed, State};
use second::trap::{request, Ending, Outcome, Target, Trap};
use second::waits::{hfence_gvma, hfence_vvma, sfence_vma, wfi};
use second::walk::{translate, Access, Answer, Kind, List, Purpose, Read, PLACES};

/// Random numbers (xorshift).
struct Random(u64);

impl Random {
    fn bits(&mut self) -> u64 {
        self.0 ^= self.0 << 13;
        self.0 ^= self.0 >> 7;
        self.0 ^= self.0 << 17;
        self.0
    }

    fn below(&mut self, limit: u64) -> u64 {
        self.bits() % limit
    }

    /// Zero, all ones, one bit, a small number or any.
    fn number(&mut self) -> u64 {
        match self.below(6) {
            0 => 0,
            1 => u64::MAX,
            2 => 1 << self.below(64),
            3 => self.below(32),
            _ => self.bits(),
        }
    }
}

/// A hart that passes check 2.
fn legal_hart(random: &mut Random) -> Hart {
    let mode = Mode::ALL[random.below(5) as usize];
    let mut hart = Hart::new(0, 0, random.number() & !3).in_mode(mode);
    for row in &ROWS {
        let value = random.number();
        if let Some(place) = hart.stored_mut(row.number) {
            *place = after_write(row, *place, value);
        }
    }
    // All nine bits of mip come in with a hart, also those that no write makes.
    hart.mip = random.number() & 0xeee;
    if mode != Mode::M {
        hart.mstatus &= !(1 << 17);
    }
    assert_eq!(hart.checked_mode(), Some(mode));
    hart
}

/// A hart of any numbers.
fn any_hart(random: &mut Random) -> Hart {
    let mut hart = Hart::new(random.below(3), random.below(5), random.number());
    for row in &ROWS {
        let value = random.number();
        if let Some(place) = hart.stored_mut(row.number) {
            *place = value;
        }
    }
    hart
}

/// A refusal has a reason of its number, a trap with cause 2 or 22 a rule, an interrupt which one was taken or why none, and what
/// was done has none.
fn check_reason(outcome: &Outcome) {
    match (outcome.ending, outcome.reason) {
        (Ending::Refused(number), Some(Reason::Refused(refusal))) => {
            assert_eq!(refusal.number(), number);
        }
        (Ending::Trapped(trap, _), Some(Reason::Forbidden(_))) => {
            assert!(matches!(trap.cause, 2 | 22));
        }
        (Ending::Trapped(trap, target), Some(Reason::Interrupt(Why::Taken(due)))) => {
            // 10, 2 and 6 are written one lower into VS.
            let lower = u64::from(target == Target::Vs);
            let cause = (1 << 63) + u64::from(due.number) - lower;
            assert_eq!((trap, target), (Trap::plain(cause), due.level));
        }
        (Ending::Done, Some(Reason::Interrupt(why))) => assert!(!matches!(why, Why::Taken(_))),
        (Ending::Trapped(..) | Ending::Done, None) => {}
        other => panic!("{other:?}"),
    }
}

/// A register access, a return, WFI or a fence that traps has its word as the trap's value, and nothing else of it.
fn check_word(outcome: &Outcome, word: u32) {
    if let Ending::Trapped(trap, target) = outcome.ending {
        let value = u64::from(word);
        let cause = trap.cause;
        assert_eq!(
            trap,
            Trap {
                value,
                ..Trap::plain(cause)
            }
        );
        let tval = match target {
            Target::M => outcome.hart.mtval,
            Target::Hs => outcome.hart.stval,
            Target::Vs => outcome.hart.vstval,
        };
        assert_eq!(tval, value);
    }
}

/// Every event but translations, with random numbers.
fn outcomes(random: &mut Random, hart: &Hart) -> Vec<Outcome> {
    let mut outcomes = vec![ecall(hart), ebreak(hart), interrupt(hart)];
    for event in [mret, sret, wfi, sfence_vma, hfence_vvma, hfence_gvma] {
        let word = random.bits() as u32;
        let outcome = event(hart, word);
        check_word(&outcome, word);
        outcomes.push(outcome);
    }
    for _ in 0..4 {
        let trap = Trap {
            cause: random.number(),
            value: random.number(),
            second: random.number(),
            word: random.number(),
            flag: random.below(2) == 1,
        };
        outcomes.push(request(hart, &trap));
        let cause = random.below(24);
        let flag = random.below(2) == 1;
        outcomes.push(request(
            hart,
            &Trap {
                flag,
                ..Trap::plain(cause)
            },
        ));
    }
    for _ in 0..12 {
        let number = match random.below(4) {
            0 => random.number(),
            _ => ROWS[random.below(ROWS.len() as u64) as usize].number,
        };
        let value = random.number();
        let writes = random.below(2) == 1;
        let action = match random.below(4) {
            0 => Action::Read,
            1 => Action::Write(value),
            2 => Action::Set { value, writes },
            _ => Action::Clear { value, writes },
        };
        let word = random.bits() as u32;
        let accessed = access(hart, number, action, word);
        check_word(&accessed.outcome, word);
        if accessed.outcome.ending != Ending::Done {
            assert_eq!(accessed.old, 0, "a trap or refusal answers 0");
            assert!(accessed.outcome.reason.is_some());
        }
        outcomes.push(accessed.outcome);
    }
    outcomes.iter().for_each(check_reason);
    outcomes
}

#[test]
fn every_accepted_event_leaves_a_hart_that_passes_check_2() {
    let mut random = Random(0x9e37_79b9_7f4a_7c15);
    for _ in 0..3000 {
        let hart = legal_hart(&mut random);
        for outcome in outcomes(&mut random, &hart) {
            match outcome.ending {
                Ending::Refused(number) => {
                    assert!(number == 4 || number == 5);
                    assert_eq!(outcome.hart, hart, "hart as given");
                }
                Ending::Trapped(..) | Ending::Done => {
                    assert!(
                        outcome.hart.checked_mode().is_some(),
                        "{hart:x?} {outcome:x?}"
                    );
                }
            }
        }
    }
}

#[test]
fn a_hart_that_fails_check_2_is_refused_everywhere() {
    let mut random = Random(42);
    for _ in 0..3000 {
        let hart = any_hart(&mut random);
        if hart.checked_mode().is_some() {
            continue;
        }
        for outcome in outcomes(&mut random, &hart) {
            assert_eq!(outcome.ending, Ending::Refused(2));
            assert_eq!(outcome.hart, hart);
        }
    }
}

/// "Where it does not trap, or is refused, the word is not looked at": with another word the same comes of it.
#[test]
fn the_word_counts_for_nothing_but_the_value_of_a_trap() {
    let mut random = Random(0xfeed);
    for _ in 0..3000 {
        let hart = match random.below(4) {
            0 => any_hart(&mut random),
            _ => legal_hart(&mut random),
        };
        let (one, other) = (random.bits() as u32, random.bits() as u32);
        let same = |first: Outcome, second: Outcome| {
            let trapped = matches!(first.ending, Ending::Trapped(..));
            assert_eq!(first.reason, second.reason);
            assert_eq!(first == second, !trapped || one == other);
        };
        for event in [mret, sret, wfi, sfence_vma, hfence_vvma, hfence_gvma] {
            same(event(&hart, one), event(&hart, other));
        }
        for row in &ROWS {
            let action = match random.below(2) {
                0 => Action::Read,
                _ => Action::Write(random.number()),
            };
            let [first, second] = [one, other].map(|word| access(&hart, row.number, action, word));
            assert_eq!(first.old, second.old);
            same(first.outcome, second.outcome);
        }
    }
}

/// A hart whose interrupts are pending, enabled and delegated as random bits say.
fn interrupted_hart(random: &mut Random) -> Hart {
    let mut hart = legal_hart(random);
    hart.mip = random.bits() & random.bits() & 0xeee;
    hart.mie = random.bits() & 0xeee;
    hart.mideleg = (random.bits() & 0x222) | 0x444;
    hart.hideleg = random.bits() & 0x444;
    hart
}

/// An interrupt that is taken is pending, enabled and goes to its level; it leaves mie, mip and the delegation as they are, and so
/// does the event where none is due, which leaves the whole hart.
#[test]
fn an_interrupt_changes_nothing_that_decides_it() {
    let mut random = Random(0x1234_5678);
    let mut taken = [0; 12];
    for _ in 0..20_000 {
        let hart = interrupted_hart(&mut random);
        let mode = hart.checked_mode().unwrap();
        let outcome = interrupt(&hart);
        check_reason(&outcome);
        let after = outcome.hart;
        let held = |hart: &Hart| [hart.mip, hart.mie, hart.mideleg, hart.hideleg];
        assert_eq!(held(&after), held(&hart));
        let Some(Reason::Interrupt(Why::Taken(due))) = outcome.reason else {
            assert_eq!(after, hart, "none is due");
            continue;
        };
        taken[due.number as usize] += 1;
        let one = 1 << due.number;
        assert_ne!(hart.mip & hart.mie & one, 0);
        let (expected, saved, own) = match due.level {
            Target::M => (Mode::M, after.mepc, hart.mideleg & one == 0),
            Target::Hs => (
                Mode::Hs,
                after.sepc,
                hart.mideleg & !hart.hideleg & one != 0,
            ),
            Target::Vs => (Mode::Vs, after.vsepc, hart.hideleg & one != 0),
        };
        assert!(own);
        assert_eq!((after.checked_mode(), saved), (Some(expected), hart.pc));
        // Never into a level below the mode.
        assert!(mode != Mode::M || due.level == Target::M);
        assert!(mode.v() || due.level != Target::Vs);
        // After it none is due: the level's own bit is 0, and one of a higher level would have come first.
        assert_eq!(interrupt(&after).hart, after);
    }
    for number in [1, 2, 3, 5, 6, 7, 9, 10, 11] {
        assert!(taken[number] > 100, "{number}: {taken:?}");
    }
}

/// How many levels the tables of a vsatp or hgatp have: "Bare and mixed depths count n or m as 0 or their own depth."
fn depth(atp: u64) -> u64 {
    match atp >> 60 {
        0 => 0,
        mode => mode - 5,
    }
}

/// One page at 0 that is every table of both stages: guest physical page 1 is this page, by the entries 0 and 1. The others are the
/// guest's: mostly pointers to that page, some leaves.
fn page_of_tables(random: &mut Random) -> Image {
    let mut image = Image {
        base: 0,
        bytes: vec![0; 4096],
    };
    for place in 0..512 {
        let entry = match (place, random.below(20)) {
            (0, _) => 0x1,
            (1, _) => 0xdf,
            (_, 0) => random.number(),
            (_, 1..=4) => 0x4df,
            _ => 0x401,
        };
        assert!(image.put(Machine(8 * place), entry));
    }
    image
}

/// A hart and an access that walk through such a page, by any depths.
fn walk_of_page(random: &mut Random) -> (Hart, Access) {
    let mut hart = Hart::new(1, 0, 0);
    let [n, m] = [0, 0].map(|bare: u64| [bare, 8, 9, 10][random.below(4) as usize]);
    hart.vsatp = (n << 60) | u64::from(m != 0);
    hart.hgatp = m << 60;
    let bits = 12 + 9 * depth(hart.vsatp) as u32;
    let address = match n {
        0 => 0x1000 + random.below(512) * 8,
        // Well formed.
        _ => (((random.bits() << (64 - bits)) as i64) >> (64 - bits)) as u64 & !7,
    };
    let access = Access {
        kind: [Kind::Load, Kind::Store][random.below(2) as usize],
        address,
        width: 8,
    };
    (hart, access)
}

/// "n levels over m levels read at most (n+1)(m+1)-1 entries, so 15, 24, 35." The list is that of walks from the top level down, the
/// second stage's before each entry of the first.
#[test]
fn lists_of_any_depths() {
    let mut random = Random(0x0002_0260_5000);
    let mut longest = 0;
    for _ in 0..20_000 {
        let image = page_of_tables(&mut random);
        let (hart, access) = walk_of_page(&mut random);
        let translation = translate(&hart, &image, &access);
        let (n, m) = (depth(hart.vsatp), depth(hart.hgatp));
        let items = translation.list.items();
        let most = (n + 1) * (m + 1) - 1;
        assert!(items.len() as u64 <= most);
        longest = longest.max(items.len());
        let (mut first, mut second) = (n, m);
        for read in items {
            assert_eq!(image.read(Machine(read.address)), Some(read.value));
            let (level, top) = match read.stage {
                1 => (&mut first, n),
                _ => (&mut second, m),
            };
            assert!(*level > 0 && *level <= top, "{items:x?}");
            *level -= 1;
            assert_eq!(read.level, *level, "{items:x?}");
            if read.stage == 1 {
                second = m;
            }
        }
    }
    assert_eq!(longest, 35);
}

/// An image, taken or not, with some numbers in it.
fn any_image(random: &mut Random) -> Image {
    let base = match random.below(3) {
        0 => random.number(),
        _ => random.number() & 0xff_ffff_ffff_f000,
    };
    let mut image = Image {
        base,
        bytes: vec![0; [0, 7, 4096, 8192][random.below(4) as usize]],
    };
    for _ in 0..4 {
        let address = base.wrapping_add(random.below(8192));
        let value = random.number();
        image.put(Machine(address), value);
    }
    image
}

/// What holds of a hypervisor load or store, done, trapped or refused. An address of the image is often one that it reaches.
#[test]
fn hypervisor_loads_and_stores_of_any_numbers() {
    let mut random = Random(0xabcd);
    let mut done = 0;
    for _ in 0..20_000 {
        let mut hart = match random.below(4) {
            0 => any_hart(&mut random),
            _ => legal_hart(&mut random),
        };
        if random.below(2) == 0 {
            (hart.vsatp, hart.hgatp) = (0, 0);
        }
        let mut image = any_image(&mut random);
        let access = GuestAccess {
            operation: match random.below(3) {
                0 => Operation::Load {
                    signed: random.below(2) == 1,
                },
                1 => Operation::LoadExecutable,
                _ => Operation::Store {
                    value: random.number(),
                },
            },
            address: match random.below(2) {
                0 => random.number(),
                _ => image.base.wrapping_add(random.below(1024) * 8),
            },
            width: match random.below(8) {
                0 => random.number(),
                _ => 1 << random.below(4),
            },
        };
        let before = image.clone();
        let word = random.bits() as u32;
        let reached = reach(&hart, &mut image, &access, word);
        let is_store = matches!(access.operation, Operation::Store { .. });
        assert_eq!(reached.value.is_none(), is_store);
        check_reason_of_access(&reached.outcome, access.access().kind);
        let places = &reached.list.places[reached.list.count..];
        assert!(places.iter().all(|place| *place == Read::default()));
        for read in reached.list.items() {
            assert_eq!(before.read(Machine(read.address)), Some(read.value));
        }
        let Some(machine) = reached.machine else {
            assert_eq!(image, before, "nothing is stored");
            assert!(matches!(reached.value, None | Some(0)));
            match reached.outcome.ending {
                Ending::Refused(number) => {
                    assert!((1..=3).contains(&number));
                    assert_eq!(reached.outcome.hart, hart, "hart as given");
                    assert_eq!(reached.list, List::default());
                }
                Ending::Trapped(trap, target) => {
                    assert!(reached.outcome.hart.checked_mode().is_some());
                    // "a trap request delivers the fault", as if it were asked for.
                    assert_eq!(reached.outcome.hart, request(&hart, &trap).hart);
                    assert!(target != Target::Vs);
                    let forbidden = matches!(trap.cause, 2 | 22);
                    let value = if forbidden {
                        u64::from(word)
                    } else {
                        access.address
                    };
                    assert_eq!((trap.value, trap.flag), (value, !forbidden));
                }
                Ending::Done => panic!("done without its bytes"),
            }
            continue;
        };
        done += 1;
        assert_eq!(reached.outcome.ending, Ending::Done);
        assert_eq!(reached.outcome.hart, hart.moved_on());
        assert!(before.holds(machine, access.width));
        let start = (machine.0 - before.base) as usize;
        let end = start + access.width as usize;
        assert_eq!(image.bytes[..start], before.bytes[..start]);
        assert_eq!(image.bytes[end..], before.bytes[end..]);
        match access.operation {
            Operation::Store { value } => {
                let bytes = value.to_le_bytes();
                assert_eq!(image.bytes[start..end], bytes[..access.width as usize]);
            }
            _ => assert_eq!(image, before, "a load writes nothing"),
        }
    }
    assert!(done > 500, "{done}");
}

/// The causes of the faults that a kind of access can have: no other kind has one of them.
fn causes_of(kind: Kind) -> &'static [u64] {
    match kind {
        Kind::Fetch => &[1, 12, 20],
        Kind::Load => &[4, 5, 13, 21],
        Kind::Store => &[6, 7, 15, 23],
    }
}

/// A hypervisor load or store that is refused or traps has a reason, by its cause, and one that is done has none.
fn check_reason_of_access(outcome: &Outcome, kind: Kind) {
    match (outcome.ending, outcome.reason) {
        (Ending::Trapped(trap, _), Some(Reason::Fault(_))) => {
            assert!(causes_of(kind).contains(&trap.cause), "{trap:x?}");
        }
        (Ending::Trapped(..), None) => panic!("a trap without a reason"),
        _ => check_reason(outcome),
    }
}

/// An access, taken or not.
fn any_access(random: &mut Random) -> Access {
    Access {
        kind: [Kind::Fetch, Kind::Load, Kind::Store][random.below(3) as usize],
        address: random.number(),
        width: match random.below(4) {
            0 => random.number(),
            _ => 1 << random.below(4),
        },
    }
}

#[test]
fn translations_of_any_numbers() {
    let mut random = Random(7);
    for _ in 0..20_000 {
        let hart = match random.below(3) {
            0 => any_hart(&mut random),
            _ => legal_hart(&mut random),
        };
        let image = any_image(&mut random);
        let access = any_access(&mut random);
        let translation = translate(&hart, &image, &access);
        let List { places, count } = translation.list;
        assert!(places[count..]
            .iter()
            .all(|place| *place == Read::default()));
        match translation.answer {
            Answer::Refused(number) => {
                assert!((1..=3).contains(&number));
                let refusal = translation.refusal.map(|refusal| refusal.number());
                assert_eq!(refusal, Some(number));
                assert_eq!(translation.list, List::default());
            }
            Answer::Address(address) => {
                assert!(image.holds(address, access.width));
                assert_eq!((translation.why, translation.refusal), (None, None));
            }
            Answer::Fault(trap) => {
                assert_eq!(trap.value, access.address);
                assert!(causes_of(access.kind).contains(&trap.cause), "{trap:x?}");
                assert!(translation.why.is_some());
                // "a trap request delivers the fault".
                let outcome = request(&hart, &trap);
                assert!(matches!(outcome.ending, Ending::Trapped(..)), "{trap:x?}");
            }
        }
        for read in translation.list.items() {
            assert_eq!(image.read(Machine(read.address)), Some(read.value));
        }
    }
}

/// An image of the same base and length, with these entries and otherwise any bytes.
fn image_with(random: &mut Random, image: &Image, entries: &[Read]) -> Image {
    let mut other = image.clone();
    for byte in &mut other.bytes {
        *byte = random.bits() as u8;
    }
    for read in entries {
        assert!(other.put(Machine(read.address), read.value));
    }
    other
}

/// A start and so many presses.
fn pressed(hart: &Hart, image: &Image, access: &Access, presses: usize) -> Place {
    let place = start(hart, image, access);
    (0..presses).fold(place, |place, _| press(&place, image).place)
}

/// Change request 2026-07, sentence by sentence: the list and the end of the second engine are those of the plain one, press by press;
/// no press reads ahead, none reads back, and after the end none does anything.
fn check_presses(random: &mut Random, hart: &Hart, image: &Image, access: &Access) -> usize {
    let plain = translate(hart, image, access);
    let items = plain.list.items();
    let mut place = start(hart, image, access);
    for (count, item) in items.iter().enumerate() {
        let ahead = image_with(random, image, &items[..count]);
        assert_eq!(pressed(hart, &ahead, access, count), place);
        assert_eq!((place.end(), place.list.items()), (None, &items[..count]));
        let after = press(&place, image);
        assert_eq!((after.shown, after.refusal), (Some(*item), None));
        let alone = image_with(random, image, &[*item]);
        assert_eq!(press(&place, &alone), after);
        place = after.place;
    }
    let end = End {
        answer: plain.answer,
        reason: plain.reason(),
    };
    assert_eq!((place.end(), place.list), (Some(end), plain.list));
    let same_items = image_with(random, image, items);
    assert_eq!(pressed(hart, &same_items, access, items.len()), place);
    let none = image_with(random, image, &[]);
    let past = press(&place, &none);
    assert_eq!((past.place, past.shown), (place, None));
    assert_eq!(past.refusal.is_some(), image.refusal().is_some());
    items.len()
}

#[test]
fn presses_of_any_depths() {
    let mut random = Random(0x0002_0260_7000);
    let mut lengths = [0; PLACES + 1];
    for _ in 0..1500 {
        let image = page_of_tables(&mut random);
        let (hart, access) = walk_of_page(&mut random);
        lengths[check_presses(&mut random, &hart, &image, &access)] += 1;
    }
    assert!(lengths[PLACES] > 0, "{lengths:?}");
    assert!(lengths.iter().filter(|count| **count > 0).count() > 20);
}

#[test]
fn presses_of_any_numbers() {
    let mut random = Random(77);
    for _ in 0..3000 {
        let hart = match random.below(3) {
            0 => any_hart(&mut random),
            _ => legal_hart(&mut random),
        };
        let image = any_image(&mut random);
        let access = any_access(&mut random);
        check_presses(&mut random, &hart, &image, &access);
    }
}

/// A place that no start need have made: one or more of its numbers are others.
fn any_place(random: &mut Random, mut place: Place) -> Place {
    for _ in 0..=random.below(3) {
        let number = match random.below(2) {
            0 => random.number(),
            _ => random.below(6),
        };
        match random.below(5) {
            0 => place.hart = legal_hart(random),
            1 => place.hart = any_hart(random),
            2 => place.access = any_access(random),
            3 => place.list.count = number as usize,
            _ => {}
        }
        let State::Going(next) = &mut place.state else {
            continue;
        };
        *next = match random.below(8) {
            0 => Next {
                mode: Mode::ALL[random.below(5) as usize],
                ..*next
            },
            1 => Next {
                stage: number,
                ..*next
            },
            2 => Next {
                entry: Machine(random.number()),
                ..*next
            },
            3 => Next {
                first_level: number,
                ..*next
            },
            4 => Next {
                second_level: number,
                ..*next
            },
            5 => Next {
                guest: GuestPhysical(random.number()),
                ..*next
            },
            6 => Next {
                purpose: [Purpose::GuestEntry, Purpose::Access][random.below(2) as usize],
                ..*next
            },
            _ => *next,
        };
    }
    place
}

/// What holds of a press on any place: refused it changes nothing, else it reads at most one entry, says which, and by that entry
/// alone goes on; so that it comes to an end, or to a refusal.
#[test]
fn presses_on_any_place() {
    let mut random = Random(0x0bad_91ac_e000);
    let mut refusals = 0;
    for _ in 0..5000 {
        let image = page_of_tables(&mut random);
        let (hart, access) = walk_of_page(&mut random);
        let presses = random.below(20) as usize;
        let place = pressed(&hart, &image, &access, presses);
        let mut place = any_place(&mut random, place);
        for left in (0..=PLACES).rev() {
            let Pressed {
                place: after,
                shown,
                refusal,
            } = press(&place, &image);
            let entries: Vec<Read> = shown.into_iter().collect();
            let other = image_with(&mut random, &image, &entries);
            assert_eq!(press(&place, &other), press(&place, &image));
            if let Some(refusal) = refusal {
                assert_eq!((refusal.number(), after, shown), (6, place, None));
                refusals += 1;
                break;
            }
            let kept = |place: &Place| (place.hart, place.access, place.base, place.length);
            assert_eq!(kept(&after), kept(&place));
            let mut list = place.list;
            if let Some(read) = shown {
                assert_eq!(image.read(Machine(read.address)), Some(read.value));
                list.places[list.count] = read;
                list.count += 1;
            }
            assert_eq!(after.list, list);
            if place.end().is_some() {
                assert_eq!((after, shown), (place, None));
                break;
            }
            place = after;
            assert!(left > 0, "more presses than places");
        }
    }
    assert!((500..4500).contains(&refusals), "{refusals}");
}
