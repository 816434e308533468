//! A whole script from a seed.

use std::path::Path;

use second::hart::Mode;

use crate::coverage::Coverage;
use crate::program::Script;
use crate::scenes::{
    bad, depths, edges, flips, guest, interrupts, journeys, long, numbers, refusals, registers,
    traps, walks, words,
};
use crate::scribe::Scribe;

/// How many of a hundred scripts ask for reasons too.
const EXPLAINED: u64 = 50;

/// The seed of a script: every script of a run has its own.
fn script_seed(seed: u64, place: u64) -> u64 {
    crate::rng::Rng::new(seed ^ place.wrapping_mul(0xd605_bbb5_8c8a_bbc9)).bits()
}

/// The script with this place in the run of this seed: at least `events` events, and half of the time a bad line at its end.
/// With it comes what it reaches.
pub fn script(seed: u64, place: u64, events: u64, folder: &Path) -> (Script, Coverage) {
    let mut scribe = Scribe::new(script_seed(seed, place), folder.to_path_buf());
    Sweep::new(place).systematic(&mut scribe);
    while scribe.coverage.events < events {
        scene(&mut scribe);
    }
    if scribe.rng.chance(50) {
        bad::end_badly(&mut scribe);
    }
    finished(scribe)
}

/// A script in which every single bit of a hart in this mode is flipped, behind images around the largest. It always asks for
/// reasons: some have no other scene, or only rare ones.
pub fn flips_script(seed: u64, mode: Mode, folder: &Path) -> (Script, Coverage) {
    let mut scribe = Scribe::new(script_seed(seed, !(mode as u64)), folder.to_path_buf());
    edges::around_the_largest(&mut scribe);
    flips::flips(&mut scribe, mode);
    explained(scribe)
}

/// A script with everything that interrupts can come to in this mode. It always asks for reasons too.
pub fn interrupts_script(seed: u64, mode: Mode, folder: &Path) -> (Script, Coverage) {
    let place = !(mode as u64 + Mode::ALL.len() as u64);
    let mut scribe = Scribe::new(script_seed(seed, place), folder.to_path_buf());
    interrupts::all_in_turn(&mut scribe, mode);
    explained(scribe)
}

/// A script with everything that the words of instructions can come to. It always asks for reasons too.
pub fn words_script(seed: u64, folder: &Path) -> (Script, Coverage) {
    let place = !(2 * Mode::ALL.len() as u64);
    let mut scribe = Scribe::new(script_seed(seed, place), folder.to_path_buf());
    words::all_in_turn(&mut scribe);
    explained(scribe)
}

/// A script with everything that hypervisor loads and stores can come to. It always asks for reasons too.
pub fn guest_script(seed: u64, folder: &Path) -> (Script, Coverage) {
    let place = !(2 * Mode::ALL.len() as u64 + 1);
    let mut scribe = Scribe::new(script_seed(seed, place), folder.to_path_buf());
    guest::all_in_turn(&mut scribe);
    explained(scribe)
}

/// A script with everything that depths of tables and MODEs can come to. It always asks for reasons too.
pub fn depths_script(seed: u64, folder: &Path) -> (Script, Coverage) {
    let place = !(2 * Mode::ALL.len() as u64 + 2);
    let mut scribe = Scribe::new(script_seed(seed, place), folder.to_path_buf());
    depths::all_in_turn(&mut scribe);
    explained(scribe)
}

/// A script with every number of a register in every mode. It always asks for reasons too.
pub fn numbers_script(seed: u64, folder: &Path) -> (Script, Coverage) {
    let place = !(2 * Mode::ALL.len() as u64 + 3);
    let mut scribe = Scribe::new(script_seed(seed, place), folder.to_path_buf());
    numbers::all_in_turn(&mut scribe);
    explained(scribe)
}

/// A script with one of the longest lines, or with one that is a byte longer and bad, by its place in the run.
pub fn long_script(seed: u64, place: u64, folder: &Path) -> (Script, Coverage) {
    let mut scribe = Scribe::new(
        script_seed(seed.rotate_left(32), place),
        folder.to_path_buf(),
    );
    scribe.event("wfi");
    long::long_line(&mut scribe, place);
    finished(scribe)
}

/// A small script that ends at a bad line: by its place in the run, one of those that are always bad, or another.
pub fn bad_script(seed: u64, place: u64, folder: &Path) -> (Script, Coverage) {
    let mut scribe = Scribe::new(script_seed(!seed, place), folder.to_path_buf());
    for _ in 0..scribe.rng.below(4) {
        let line = scribe.rng.pick(&[
            "wfi",
            "image 1000 10",
            "image 80000000 1000",
            "hart 1 1 0",
            "read 300",
            "load 80000000 8",
            "interrupt",
            "hsv 4 80000000 1234",
            "hlv 8 1 80000000",
        ]);
        scribe.event(line);
        if scribe.rng.chance(20) {
            let blank =
                scribe
                    .rng
                    .pick(&[&b""[..], b"  ", b"\t\r", b"# load 0 8", b"  #\xff", b"#\0"]);
            scribe.lines.push(blank.to_vec());
        }
    }
    bad::end_in_turn(&mut scribe, place);
    finished(scribe)
}

/// The script that a scribe has written, and how it is given to the programs.
fn finished(mut scribe: Scribe) -> (Script, Coverage) {
    let script = Script {
        last_newline: scribe.rng.chance(80),
        through_input: scribe.rng.chance(25),
        explained: scribe.rng.chance(EXPLAINED),
        lines: scribe.lines,
    };
    (script, scribe.coverage)
}

/// The same, asking for reasons in any case.
fn explained(scribe: Scribe) -> (Script, Coverage) {
    let (mut script, coverage) = finished(scribe);
    script.explained = true;
    (script, coverage)
}

/// How far the systematic scenes have come. Every script goes on where the one before it in the run stops.
struct Sweep {
    number: u64,
    register: u64,
}

impl Sweep {
    fn new(place: u64) -> Sweep {
        Sweep {
            number: place * 40 * 2,
            register: place * 20 * 2,
        }
    }

    /// The systematic scenes, a few in every script.
    fn systematic(&mut self, scribe: &mut Scribe) {
        for _ in 0..2 {
            self.numbers(scribe);
            self.registers(scribe);
        }
        traps::wrong_requests(scribe);
        refusals::many_wrong(scribe);
    }

    fn numbers(&mut self, scribe: &mut Scribe) {
        registers::numbers_in_turn(scribe, self.number);
        self.number += 40;
    }

    fn registers(&mut self, scribe: &mut Scribe) {
        registers::registers_in_turn(scribe, self.register);
        self.register += 20;
    }
}

/// One scene. Half of all events are translations through tables.
fn scene(scribe: &mut Scribe) {
    match scribe.rng.below(115) {
        0..=29 => walks::walks(scribe),
        30..=44 => registers::accesses(scribe),
        45..=49 => registers::write_rules(scribe),
        50..=64 => traps::requests(scribe),
        65..=76 => traps::instructions(scribe),
        77..=82 => journeys::journey(scribe),
        83..=88 => refusals::combinations(scribe),
        89 => refusals::modes_and_pcs(scribe),
        90 => refusals::mprv_everywhere(scribe),
        91..=93 => refusals::fields(scribe),
        94 => refusals::interrupt_bits(scribe),
        95..=97 => edges::edges(scribe),
        98..=105 => interrupts::events(scribe),
        106..=111 => interrupts::views(scribe),
        112..=113 => edges::address_spaces(scribe),
        _ if scribe.rng.chance(20) => edges::large_images(scribe),
        _ => edges::files(scribe),
    }
}

#[cfg(test)]
mod tests {
    use super::*;
    use crate::program::{model, Folder, InProcess, Program, Status};

    #[test]
    fn the_same_seed_gives_the_same_script() {
        let folder = Folder::new().unwrap();
        let make = |seed, place| script(seed, place, 300, folder.path());
        assert_eq!(make(1, 0), make(1, 0));
        assert_ne!(make(1, 0), make(1, 1));
        assert_ne!(make(1, 0), make(2, 0));
    }

    #[test]
    fn scripts_end_as_they_are_made_to() {
        let folder = Folder::new().unwrap();
        let program = InProcess {
            name: "the model",
            perform: model,
            folder: &folder,
        };
        let mut whole = 0;
        for place in 0..20 {
            let (script, _) = script(3, place, 200, folder.path());
            let outcome = program.run(&script).unwrap();
            let bad = String::from_utf8_lossy(&outcome.output).contains("error ");
            assert_eq!(outcome.status, Status::Exit(i32::from(bad)));
            whole += u32::from(!bad);
            let (script, _) = bad_script(3, place, folder.path());
            assert_eq!(program.run(&script).unwrap().status, Status::Exit(1));
        }
        assert!((3..18).contains(&whole), "{whole}");
    }
}
