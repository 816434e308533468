//! What explanations say an event read and wrote, against the harts shown before and after it, over generated scripts: the mode and
//! pc, every register that changed, by its fields, and what the views show.

use compare::coverage::event_word;
use compare::generate::script;
use compare::program::Folder;
use compare::rng::Rng;
use std::collections::BTreeMap;
use std::fmt::Write as _;
use std::path::Path;
use std::process::Command;

/// The fields that traps and returns write: name, lowest bit and width.
const MSTATUS: &[(&str, u32, u32)] = &[
    ("SIE", 1, 1),
    ("MIE", 3, 1),
    ("SPIE", 5, 1),
    ("MPIE", 7, 1),
    ("SPP", 8, 1),
    ("MPP", 11, 2),
    ("MPRV", 17, 1),
    ("GVA", 38, 1),
    ("MPV", 39, 1),
];
const HSTATUS: &[(&str, u32, u32)] = &[("GVA", 6, 1), ("SPV", 7, 1), ("SPVP", 8, 1)];
const SSTATUS: u64 = 0x2_000c_0122;

/// A hart as `show` writes it: V, privilege, pc and the registers by number.
#[derive(Clone, Debug, Default, PartialEq)]
struct Shown {
    place: Vec<u64>,
    registers: BTreeMap<u64, u64>,
}

impl Shown {
    /// What a read of a register shows, also of a view or a constant.
    fn read(&self, number: u64) -> u64 {
        let [mideleg, mie, mip, hideleg] = [0x303, 0x304, 0x344, 0x603].map(|n| self.registers[&n]);
        match number {
            0x100 => self.registers[&0x300] & SSTATUS,
            0x104 => mie & mideleg & 0x222,
            0x144 => mip & mideleg & 0x222,
            0x204 => (mie & hideleg & 0x444) >> 1,
            0x244 => (mip & hideleg & 0x444) >> 1,
            0x604 => mie & 0x444,
            0x644 | 0x645 => mip & 0x444,
            stored => self.registers.get(&stored).copied().unwrap_or(0),
        }
    }
}

/// An event's line and what is said about it.
struct Said {
    text: String,
    lines: Vec<String>,
}

fn number(word: &str) -> u64 {
    u64::from_str_radix(word, 16).unwrap_or_else(|_| panic!("{word} is no number"))
}

fn name_of(number: u64) -> &'static str {
    second::registers::find(number).map_or("", |row| row.name)
}

fn number_of(name: &str) -> u64 {
    let row = second::registers::ROWS.iter().find(|row| row.name == name);
    row.unwrap_or_else(|| panic!("{name} is no register"))
        .number
}

/// The harts shown and what is said about the events between them, in turn.
fn read(output: &str) -> (Vec<Shown>, Vec<Said>) {
    let (mut harts, mut events) = (Vec::new(), Vec::new());
    for line in output.lines() {
        let words: Vec<&str> = line.split(' ').collect();
        let numbers = || words[1..].iter().map(|word| number(word));
        match words[0] {
            "hart" => harts.push(Shown {
                place: numbers().collect(),
                ..Shown::default()
            }),
            "reg" => {
                let hart: &mut Shown = harts.last_mut().expect("registers follow a hart");
                hart.registers.insert(number(words[1]), number(words[2]));
            }
            "#" if words[1] == "line" => {
                let text = words[3..].join(" ");
                let lines = Vec::new();
                events.push(Said { text, lines });
            }
            "#" => {
                let said: &mut Said = events.last_mut().expect("explanations follow a line");
                said.lines.push(words[1..].join(" "));
            }
            _ => {}
        }
    }
    events.retain(|said| said.text != "show");
    (harts, events)
}

/// The hart that an event leaves, by what is said about it.
fn told(before: &Shown, said: &Said) -> Shown {
    let mut hart = before.clone();
    for line in &said.lines {
        if let Some(parts) = line.strip_prefix("it wrote ") {
            parts.split("; ").for_each(|part| wrote(&mut hart, part));
        } else if let Some((register, _, new)) = content(line) {
            if let Some(word) = hart.registers.get_mut(&register) {
                *word = new;
            }
        }
        if let Some(place) = place(line) {
            hart.place = place;
        }
    }
    hart
}

/// What a register held and holds, by `NAME (NUMBER) VALUE`, `.. stays VALUE`, `.. OLD becomes NEW`, each with words behind it, or
/// `it is kept in NAME (NUMBER): OLD becomes NEW`.
fn content(line: &str) -> Option<(u64, u64, u64)> {
    let line = line.strip_prefix("it is kept in ").unwrap_or(line);
    let (name, rest) = line.split_once(" (")?;
    let (register, rest) = rest.split_once(')')?;
    let rest = rest.trim_start_matches([':', ' ']);
    let values = rest.split([':', ',']).next().unwrap_or("");
    let values: Vec<&str> = values.split(' ').collect();
    if name_of(u64::from_str_radix(register, 16).ok()?) != name {
        return None;
    }
    let (old, new) = match values[..] {
        [value] | ["stays", value] => (value, value),
        [old, "becomes", new] => (old, new),
        _ => return None,
    };
    Some((number(register), number(old), number(new)))
}

/// `REGISTER VALUE`, or `REGISTER FIELD VALUE, FIELD VALUE ..`.
fn wrote(hart: &mut Shown, part: &str) {
    let (name, values) = part.split_once(' ').expect("a register and values");
    let register = number_of(name);
    let word = hart.registers.get_mut(&register).expect("it is stored");
    let fields = if name == "hstatus" { HSTATUS } else { MSTATUS };
    for value in values.split(", ") {
        match value.split_once(' ') {
            None => *word = number(value),
            Some((field, value)) => {
                let found = fields.iter().find(|(name, ..)| *name == field);
                let (_, low, width) = *found.unwrap_or_else(|| panic!("{name} has no {field}"));
                let mask = ((1 << width) - 1) << low;
                *word = *word & !mask | number(value) << low;
            }
        }
    }
}

/// The mode and pc after `on in MODE at PC` or `goes to MODE at PC`.
fn place(line: &str) -> Option<Vec<u64>> {
    let (_, place) = line
        .split_once(", on in ")
        .or_else(|| line.split_once(" goes to "))?;
    let (mode, pc) = place.split_once(" at ")?;
    let (v, privilege) = match mode {
        "U" => (0, 0),
        "HS" => (0, 1),
        "M" => (0, 3),
        "VU" => (1, 0),
        _ => (1, 1),
    };
    Some(vec![v, privilege, number(pc)])
}

/// A script with every event between two `show` lines, and no others; up to its bad line.
fn shown_around(lines: &[Vec<u8>]) -> Vec<u8> {
    let mut script = Vec::new();
    for line in lines {
        let Ok(parsed) = second::script::parse(line) else {
            break;
        };
        let parts = match parsed.as_ref().and_then(event_word) {
            None => vec![&line[..]],
            Some("show") => vec![],
            Some(_) => vec![b"show", &line[..], b"show"],
        };
        for part in parts {
            script.extend(part);
            script.push(b'\n');
        }
    }
    script
}

fn explained(folder: &Path, script: &[u8]) -> String {
    std::fs::write(folder.join("script.replay"), script).expect("the script is written");
    let output = Command::new(env!("CARGO_BIN_EXE_replay"))
        .current_dir(folder)
        .args(["--explain", "script.replay"])
        .output();
    String::from_utf8(output.expect("the program ends").stdout).expect("explanations are text")
}

/// Holds what is said about the events of a script against the harts around each; how many events there were, and how many of them
/// changed a register.
fn check(folder: &Path, lines: &[Vec<u8>]) -> (usize, usize) {
    let output = explained(folder, &shown_around(lines));
    let (harts, said) = read(&output);
    assert_eq!(harts.len(), 2 * said.len());
    let mut writes = 0;
    for (pair, said) in harts.chunks_exact(2).zip(&said) {
        let told = told(&pair[0], said);
        for (register, word) in &pair[1].registers {
            let name = name_of(*register);
            assert_eq!(
                told.registers[register], *word,
                "{name} after {}",
                said.text
            );
        }
        assert_eq!(told.place, pair[1].place, "{}", said.text);
        for (register, old, new) in said.lines.iter().filter_map(|line| content(line)) {
            let held = [&pair[0], &pair[1]].map(|hart| hart.read(register));
            let name = name_of(register);
            assert_eq!([old, new], held, "{name} around {}", said.text);
        }
        writes += usize::from(pair[0].registers != pair[1].registers);
    }
    (said.len(), writes)
}

#[test]
fn events_write_what_is_said_and_nothing_else() {
    let folder = Folder::new().expect("a folder is made");
    let (mut events, mut writes) = (0, 0);
    for place in 0..40 {
        let (script, _) = script(9, place, 400, folder.path());
        let (some, written) = check(folder.path(), &script.lines);
        events += some;
        writes += written;
    }
    assert!(events > 10_000 && writes > 2_000, "{events} {writes}");
}

/// A hart with interrupts pending and enabled, in any mode.
fn interrupted_hart(rng: &mut Rng) -> String {
    let mode = rng.pick(&["0 3", "0 1", "0 0", "1 1", "1 0"]);
    let mut lines = format!("hart {mode} {:x}\n", rng.bits() & !3);
    // what may be set, and what always is
    let registers = [
        (0x105, !2, 0),
        (0x205, !2, 0),
        (0x305, !2, 0),
        (0x303, 0x222, 0x444),
        (0x304, 0xeee, 0),
        (0x344, 0xeee, 0),
        (0x603, 0x444, 0),
        (0x300, 0xaa, 0xa_0000_0000),
        (0x200, 0x22, 0x2_0000_0000),
    ];
    for (register, may, always) in registers {
        let word = rng.bits() & rng.bits() & may | always;
        writeln!(lines, "reg {register:x} {word:x}").expect("text is written");
    }
    lines
}

/// An access to one of the interrupt registers, or to sstatus, with any word.
fn interrupt_access(rng: &mut Rng) -> String {
    let numbers = [
        0x100, 0x104, 0x144, 0x204, 0x244, 0x303, 0x304, 0x344, 0x603, 0x604, 0x607, 0x644, 0x645,
    ];
    let (number, value, word) = (rng.pick(&numbers), rng.number(), rng.bits() as u32);
    match rng.below(4) {
        0 => format!("read {number:x} {word:x}\n"),
        1 => format!("write {number:x} {value:x} {word:x}\n"),
        2 => format!("set {number:x} {value:x} {} {word:x}\n", rng.below(2)),
        _ => format!("clear {number:x} {value:x} {} {word:x}\n", rng.below(2)),
    }
}

#[test]
fn interrupts_and_their_registers_write_what_is_said() {
    let folder = Folder::new().expect("a folder is made");
    let mut rng = Rng::new(26);
    let mut script = String::new();
    for _ in 0..1500 {
        script += &interrupted_hart(&mut rng);
        script += "interrupt\n";
        for _ in 0..3 {
            script += &interrupt_access(&mut rng);
        }
    }
    let lines: Vec<Vec<u8>> = script.lines().map(|line| line.into()).collect();
    let (events, writes) = check(folder.path(), &lines);
    assert!(events == 6_000 && writes > 1_500, "{events} {writes}");
}
