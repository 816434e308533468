//! Plain Rust, the proved library and the second program give the same answers and lists.

mod common;

use balcumentri::{Access, Answer, Fault, Image, Kind, Read};
use bench::call::{self, HartWords, TRANSLATION_WORDS};
use bench::cases::{cases, Case, Outcome};
use bench::plain::{self, Translation, PLACES};
use bench::sides::{same, words_of};
use bench::timing::Timed;
use common::{second_of_words, words_of_second};
use compare::generate::script;
use compare::program::Folder;
use compare::rng::Rng;
use second::script::{parse, Answer as Answered, Line, Session};
use second::walk::{self, Part, Rule, Translation as Walked};

/// Plain Rust's translation, which the proved library's C call gives too, word for word. Both are written over something else.
fn checked(hart: &HartWords, image: Image<'_>, access: Access) -> Translation {
    let used = Read {
        stage: !0,
        level: !0,
        address: !0,
        value: !0,
    };
    let mut plain = Translation {
        answer: Answer::Refused(!0),
        places: [used; PLACES],
        count: !0,
    };
    plain::translate(hart, image, access, &mut plain);
    let mut words = [!0; TRANSLATION_WORDS];
    call::translate(hart, image, access, &mut words);
    assert_eq!(words_of(&plain), words, "{hart:x?} {access:x?}");
    if let Some(hart) = wrapped(hart) {
        same(&plain, &words, &hart.translate(image, access)).unwrap();
    }
    plain
}

/// The wrapper's hart of these words; it has none where a view or a constant is not zero.
fn wrapped(words: &HartWords) -> Option<balcumentri::Hart> {
    let mut hart = balcumentri::Hart::new(words[0], words[1], words[2]);
    for (place, &value) in words[3..].iter().enumerate() {
        let stored = hart.put_register(balcumentri::number(place).unwrap(), value);
        if !stored && value != 0 {
            return None;
        }
    }
    Some(hart)
}

#[test]
fn the_cases_are_the_walks_that_are_meant() {
    <Case as Timed>::agree(&cases()).unwrap();
}

#[test]
fn the_faults_are_those_that_are_meant() {
    let not_user = |part| Some((Rule::NotUser, part, Some(0)));
    // reads, causes of a fetch, a load and a store, instruction word, why the walk ends by the second program
    let meant = [
        (3, [12, 13, 15], 0, not_user(Part::Satp)),
        (3, [20, 21, 23], 0, not_user(Part::HgatpForAccess)),
        (7, [20, 21, 23], 0x3000, not_user(Part::HgatpForEntry)),
        (12, [12, 13, 15], 0, not_user(Part::Vsatp)),
        (
            0,
            [12, 13, 15],
            0,
            Some((Rule::HighBits(39), Part::Satp, None)),
        ),
        (0, [4; 3], 0, Some((Rule::Misaligned, Part::Access, None))),
    ];
    let mut cases = cases()
        .into_iter()
        .filter(|case| matches!(case.outcome, Outcome::Fault(..)));
    for (reads, causes, word, why) in meant {
        let case = cases.next().unwrap();
        for (access, walked) in by_second(&case) {
            let walk::Answer::Fault(fault) = walked.answer else {
                panic!("{}, {access:x?}: {walked:x?}", case.name);
            };
            let cause = match access.kind {
                Kind::Fetch => causes[0],
                Kind::Load => causes[1],
                Kind::Store => causes[2],
            };
            assert_eq!(
                (walked.list.count, fault.cause, fault.word),
                (reads, cause, word)
            );
            assert_eq!(fault.value, access.address);
            let ended = walked.why.map(|why| (why.rule, why.part, why.level));
            assert_eq!(ended, why, "{}", case.name);
        }
    }
    assert!(cases.next().is_none());
}

#[test]
fn the_second_program_agrees_on_the_cases() {
    for case in &cases() {
        for (access, second) in by_second(case) {
            let plain = checked(&case.words, case.image(), access);
            assert_eq!(plain, walked(&second), "{}, {access:x?}", case.name);
        }
    }
}

/// Some accesses of a case, with their translations by the second program.
fn by_second(case: &Case) -> Vec<(Access, Walked)> {
    let hart = second_of_words(&case.words);
    let image = second::image::Image {
        base: case.image().base,
        bytes: case.image().bytes.to_vec(),
    };
    let some = case.accesses.iter().take(300);
    some.map(|&access| (access, walk::translate(&hart, &image, &to_second(access))))
        .collect()
}

#[test]
fn generated_scripts() {
    let folder = Folder::new().unwrap();
    let (mut translations, mut deepest) = (0, 0);
    for place in 0..12 {
        let (script, _) = script(9, place, 2500, folder.path());
        let mut session = Session::new(folder.path().to_path_buf());
        for line in &script.lines {
            let Ok(Some(line)) = parse(line) else {
                continue;
            };
            let hart = words_of_second(&session.hart);
            let (Line::Translate(access), Ok(Answered::Translation(second))) =
                (&line, session.perform(&line))
            else {
                continue;
            };
            let image = Image {
                base: session.image.base,
                bytes: &session.image.bytes,
            };
            assert_eq!(
                checked(&hart, image, of_second(access)),
                walked(&second),
                "{line:x?}"
            );
            translations += 1;
            deepest = deepest.max(second.list.count);
        }
    }
    assert!(translations > 10_000, "{translations}");
    assert_eq!(deepest, PLACES);
}

/// The levels of a stage's tables; none where it is off.
const DEPTHS: [u64; 4] = [0, 3, 4, 5];

/// A hart with tables of some depth, and an image in which they grow: an entry of 0 that ends a walk is given a value.
struct World {
    hart: second::hart::Hart,
    image: second::image::Image,
    /// The bits of a guest physical address, none where the second stage is off.
    guest_bits: u64,
    /// Every walk goes through all levels and ends with an address.
    is_straight: bool,
    /// How many pages behind the roots are used.
    used: u64,
}

/// The second stage's root is the image's first four pages, the first stage's the next one where the second stage is off.
const ROOTS: u64 = 5;
const WORLD_PAGES: u64 = 64;

impl World {
    fn new(rng: &mut Rng, first: u64, second: u64, is_straight: bool) -> World {
        let base = rng.pick(&[0, 0x8000_0000, 1 << 48]);
        let v = if second > 0 { 1 } else { rng.below(2) };
        let mut world = World {
            hart: second::hart::Hart::new(v, rng.below(2), 0),
            image: second::image::Image {
                base,
                bytes: vec![0; WORLD_PAGES as usize * 4096],
            },
            guest_bits: if second > 0 { 14 + 9 * second } else { 0 },
            is_straight,
            used: 0,
        };
        let root = match second {
            0 => base + (ROOTS - 1) * 4096,
            _ => world.guest_page(rng),
        };
        let first_register = if v == 1 { 0x280 } else { 0x180 };
        for (register, value) in [
            (first_register, tables(first, root)),
            (0x680, tables(second, base)),
            (0x200, 0x2_0000_0000 | rng.below(4) << 18),
            (0x300, 0xa_0000_0000 | rng.below(4) << 18),
        ] {
            *world.hart.stored_mut(register).unwrap() = value;
        }
        world
    }

    /// A new page of the image.
    fn machine_page(&mut self) -> u64 {
        let page = ROOTS + self.used % (WORLD_PAGES - ROOTS);
        self.used += 1;
        self.image.base + page * 4096
    }

    /// A guest physical page that the second stage takes; it may not, where a walk needn't end with an address.
    fn guest_page(&mut self, rng: &mut Rng) -> u64 {
        let surplus = u64::from(!self.is_straight && rng.chance(5));
        let bits = (self.guest_bits + surplus).min(56);
        rng.bits() >> (64 - bits) & !4095
    }

    /// An access with any index at each level of tables of so many levels.
    fn access(&mut self, rng: &mut Rng, first: u64) -> Access {
        let address = match (first, self.guest_bits) {
            (0, 0) => self.machine_page(),
            (0, _) => self.guest_page(rng),
            _ => (rng.bits() as i64 >> (52 - 9 * first)) as u64 & !4095,
        };
        let (kind, width) = rng.pick(&[(Kind::Fetch, 4), (Kind::Load, 8), (Kind::Store, 2)]);
        let turned = u64::from(!self.is_straight && rng.chance(20)) << rng.below(64);
        Access {
            kind,
            address: (address + 8 * rng.below(512)) ^ turned,
            width,
        }
    }

    /// An entry for the place of a read: a pointer, or a leaf, with a flaw where a walk needn't end with an address.
    fn entry(&mut self, rng: &mut Rng, read: &walk::Read) -> u64 {
        let page = match (read.stage, self.guest_bits) {
            (1, 1..) => self.guest_page(rng),
            _ => self.machine_page(),
        };
        let flaw = if self.is_straight || rng.chance(80) {
            0
        } else {
            1 << rng.pick(&[0, 1, 2, 3, 4, 6, 7, 10, 53, 54, 63])
        };
        if read.level > 0 && (self.is_straight || rng.chance(85)) {
            return (page >> 2 | 1) ^ flaw;
        }
        let user = read.stage == 2 || self.hart.privilege == 0;
        let other = !self.is_straight && rng.chance(20);
        let rights = 0xcf | u64::from(user != other) << 4;
        let low = (1 << (12 + 9 * read.level)) - 1;
        ((page & !low) >> 2 | rights) ^ flaw
    }

    fn put(&mut self, address: u64, value: u64) {
        let at = (address - self.image.base) as usize;
        self.image.bytes[at..at + 8].copy_from_slice(&value.to_le_bytes());
    }

    /// The translation, which is the same by all three.
    fn translated(&self, access: Access) -> Walked {
        let second = walk::translate(&self.hart, &self.image, &to_second(access));
        let image = Image {
            base: self.image.base,
            bytes: &self.image.bytes,
        };
        let plain = checked(&words_of_second(&self.hart), image, access);
        assert_eq!(plain, walked(&second), "{:x?} {access:x?}", self.hart);
        second
    }

    /// The translation in the end, after its tables have grown.
    fn grown(&mut self, rng: &mut Rng, access: Access) -> Walked {
        loop {
            let translation = self.translated(access);
            match translation.list.items().last() {
                Some(read) if read.value == 0 => {
                    let entry = self.entry(rng, read);
                    self.put(read.address, entry);
                    if entry == 0 {
                        return translation;
                    }
                }
                _ => return translation,
            }
        }
    }

    /// The translations with one bit of one entry turned, for each entry of the list.
    fn damaged(&mut self, rng: &mut Rng, access: Access, list: &walk::List) {
        for read in list.items() {
            self.put(read.address, read.value ^ 1 << rng.below(64));
            self.translated(access);
            self.put(read.address, read.value);
        }
    }
}

/// What satp, vsatp or hgatp holds for tables of so many levels.
fn tables(levels: u64, root: u64) -> u64 {
    match levels {
        0 => 0,
        _ => (levels + 5) << 60 | root >> 12,
    }
}

#[test]
fn every_pair_of_depths() {
    let mut rng = Rng::new(5);
    for (first, second) in DEPTHS.iter().flat_map(|n| DEPTHS.map(|m| (*n, m))) {
        let (mut deepest, mut reached) = (0, 0);
        for round in 0..120 {
            let mut world = World::new(&mut rng, first, second, round % 2 == 0);
            let access = world.access(&mut rng, first);
            let Walked { answer, list, .. } = world.grown(&mut rng, access);
            world.damaged(&mut rng, access, &list);
            deepest = deepest.max(list.count as u64);
            reached += u64::from(matches!(answer, walk::Answer::Address(_)));
        }
        assert_eq!(deepest, (first + 1) * (second + 1) - 1);
        assert!(reached >= 60, "{first} over {second}: {reached}");
    }
}

#[test]
fn every_mode_of_each_register() {
    let image = Image {
        base: 0,
        bytes: &[],
    };
    let load = Access {
        kind: Kind::Load,
        address: 0,
        width: 8,
    };
    for register in [0x180, 0x280, 0x680] {
        for mode in 0..16 {
            let mut hart = balcumentri::Hart::new(0, 3, 0);
            assert!(hart.put_register(register, mode << 60));
            let answer = checked(&call::words(&hart), image, load).answer;
            let refused = answer == Answer::Refused(2);
            assert_eq!(
                refused,
                ![0, 8, 9, 10].contains(&mode),
                "{register:x} {mode}"
            );
        }
    }
}

#[test]
fn every_bit_of_every_word_of_a_hart() {
    let image = Image {
        base: 0x8000_0000,
        bytes: &[0; 0x1000],
    };
    let load = Access {
        kind: Kind::Load,
        address: 0x8000_0000,
        width: 8,
    };
    let (mut refused, mut taken) = (0, 0);
    for (v, privilege) in [(0, 0), (0, 1), (0, 3), (1, 0), (1, 1)] {
        let hart = call::words(&balcumentri::Hart::new(v, privilege, 0));
        for bit in 0..64 * hart.len() {
            let mut hart = hart;
            hart[bit / 64] ^= 1 << (bit % 64);
            if checked(&hart, image, load).answer == Answer::Refused(2) {
                refused += 1;
            } else {
                taken += 1;
            }
        }
    }
    assert!(refused > 1000 && taken > 1000, "{refused} {taken}");
}

#[test]
fn images_and_accesses_at_the_limits() {
    let bytes = vec![0; 0x400_1000];
    let hart = call::words(&balcumentri::Hart::new(0, 3, 0));
    let mut rng = Rng::new(3);
    for _ in 0..3000 {
        let length = rng.pick(&[0, 8, 0x1000, 0x1001, 0x2000, 0x400_0000, 0x400_1000]);
        let end = rng.pick(&[1 << 56, u64::MAX, 0x1000, 0x8000_0000]);
        let step = rng.pick(&[0, 1, 8, 0x1000]);
        let base = end.wrapping_sub(length as u64).wrapping_add(step);
        let image = Image {
            base,
            bytes: &bytes[..length],
        };
        let access = Access {
            kind: rng.pick(&[Kind::Fetch, Kind::Load, Kind::Store]),
            address: rng
                .pick(&[base, end, u64::MAX, 0])
                .wrapping_sub(rng.below(10)),
            width: rng.pick(&[0, 1, 2, 3, 4, 8, 8, 16, 1 << 63]),
        };
        checked(&hart, image, access);
    }
}

fn of_second(access: &walk::Access) -> Access {
    Access {
        kind: match access.kind {
            walk::Kind::Fetch => Kind::Fetch,
            walk::Kind::Load => Kind::Load,
            walk::Kind::Store => Kind::Store,
        },
        address: access.address,
        width: access.width,
    }
}

fn to_second(access: Access) -> walk::Access {
    walk::Access {
        kind: match access.kind {
            Kind::Fetch => walk::Kind::Fetch,
            Kind::Load => walk::Kind::Load,
            Kind::Store => walk::Kind::Store,
        },
        address: access.address,
        width: access.width,
    }
}

/// The second program's translation in plain Rust's form.
fn walked(walked: &Walked) -> Translation {
    Translation {
        answer: match walked.answer {
            walk::Answer::Address(address) => Answer::Address(address.0),
            walk::Answer::Refused(number) => Answer::Refused(number),
            walk::Answer::Fault(trap) => Answer::Fault(Fault {
                cause: trap.cause,
                value: trap.value,
                second: trap.second,
                word: trap.word,
                flag: trap.flag,
            }),
        },
        places: walked.list.places.map(|read| Read {
            stage: read.stage,
            level: read.level,
            address: read.address,
            value: read.value,
        }),
        count: walked.list.count,
    }
}
