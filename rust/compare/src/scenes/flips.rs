//! Every single bit of every word of a hart that passes check 2, flipped: what a translation and an event answer to it.

use second::hart::{Hart, Mode};
use second::registers::{with_mpp, MPRV, MPV, ROWS};
use second::walk::{translate, Access, Answer, Kind};

use crate::coverage::{words, Meeting};
use crate::scenes::traps::BARE_EVENTS;
use crate::scenes::walks::{choose_page, text, user_translates};
use crate::scribe::Scribe;
use crate::tables::Tables;

/// All flips of harts in a mode: a new hart for each word, and its tables.
pub fn flips(scribe: &mut Scribe, mode: Mode) {
    let tables = Tables::build(scribe);
    for word in 0..words(&scribe.session.hart).len() {
        let hart = walking_hart(scribe, &tables, mode);
        scribe.whole_hart(&hart);
        let access = good_access(scribe, &tables, mode);
        for bit in 0..64 {
            let mut flipped = hart;
            *word_of(&mut flipped, word) ^= 1 << bit;
            scribe.whole_hart(&flipped);
            meets(scribe, &hart, Meeting::Translation, &text(&access));
            let event = event(scribe, access.address);
            meets(scribe, &hart, Meeting::Event, &event);
            scribe.show();
        }
    }
}

/// A line that meets a hart one bit away from `hart`, which passes.
fn meets(scribe: &mut Scribe, hart: &Hart, meeting: Meeting, line: &str) {
    let flipped = scribe.session.hart;
    scribe.event(line);
    scribe.coverage.note_flip(hart, &flipped, meeting);
}

/// A hart in this mode with the tables on. In M its loads and stores are those of VS.
fn walking_hart(scribe: &mut Scribe, tables: &Tables, mode: Mode) -> Hart {
    let mut hart = scribe.legal_hart(mode);
    hart.satp = tables.satp;
    hart.vsatp = tables.vsatp;
    hart.hgatp = tables.hgatp;
    if mode == Mode::M {
        hart.mstatus = with_mpp(hart.mstatus, 1) | (1 << MPRV) | (1 << MPV);
    }
    hart
}

/// An access that the hart's tables let through, if one is found soon.
fn good_access(scribe: &mut Scribe, tables: &Tables, mode: Mode) -> Access {
    let pages = match mode {
        Mode::U | Mode::Hs => &tables.host,
        Mode::M | Mode::Vu | Mode::Vs => &tables.guest,
    };
    let mut access = Access {
        kind: Kind::Load,
        address: 0,
        width: 8,
    };
    for _ in 0..40 {
        access.kind = scribe.rng.pick(&[Kind::Load, Kind::Store]);
        let user = user_translates(&scribe.session.hart);
        access.address = choose_page(scribe, pages, user) + scribe.rng.below(512) * 8;
        let session = &scribe.session;
        let translation = translate(&session.hart, &session.image, &access);
        if matches!(translation.answer, Answer::Address(_)) {
            break;
        }
    }
    access
}

/// An event with numbers that no call refuses. Nothing is stored but what is mostly there: 0.
fn event(scribe: &mut Scribe, address: u64) -> String {
    let number = scribe.rng.pick(&ROWS).number;
    let value = scribe.rng.number();
    match scribe.rng.below(10) {
        0 => format!("read {number:x}"),
        1 => format!("write {number:x} {value:x}"),
        2 => format!("set {number:x} {value:x} 1"),
        3 => format!("clear {number:x} {value:x} 1"),
        4 => "trap 3 0 0 0 1".to_string(),
        5 => "interrupt".to_string(),
        6 => format!("hlv 8 0 {address:x}"),
        7 => format!("hlvx 4 {address:x}"),
        8 => format!("hsv 1 {address:x} 0"),
        _ => scribe.rng.pick(&BARE_EVENTS).to_string(),
    }
}

/// A word of a hart, by its place in [`words`].
fn word_of(hart: &mut Hart, word: usize) -> &mut u64 {
    let stored: Vec<u64> = ROWS
        .iter()
        .map(|row| row.number)
        .filter(|number| hart.stored(*number).is_some())
        .collect();
    match word {
        0 => &mut hart.v,
        1 => &mut hart.privilege,
        2 => &mut hart.pc,
        _ => hart
            .stored_mut(stored[word - 3])
            .expect("a stored register"),
    }
}
