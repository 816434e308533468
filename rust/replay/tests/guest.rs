//! What explanations say of hypervisor loads and stores, over random tables of each depth and harts. HLV and HSV go the way of the guest's own load
//! or store, entry by entry, and end as that does, for the same reason. What is said to be read, loaded, stored and overwritten is
//! what the image holds.

use compare::program::Folder;
use compare::rng::Rng;
use std::fmt::Write as _;
use std::process::Command;

const BASE: u64 = 0x8000_0000;
const LENGTH: u64 = 0x8000;

/// The low byte of an entry: leaves without one right or another, W without R, and V=0.
const FLAWED: [u64; 13] = [
    0xdf, 0xcf, 0xd7, 0xc7, 0xd9, 0xc9, 0xd3, 0xc3, 0xcb, 0x5f, 0x9f, 0xc5, 0x00,
];

/// Where accesses go: the data, tables, outside the image, and addresses that are none.
const PAGES: [u64; 10] = [
    0x4000_7000,
    0x4000_7000,
    0x4000_7000,
    0x4000_6000,
    0x4000_5000,
    0x4000_8000,
    0x8000_7000,
    0x1_4000_7000,
    0x40_0000_0000,
    0x200_0000_0000,
];

/// An event without its word, and what the guest itself would do.
fn access(rng: &mut Rng) -> (String, String) {
    let kind = rng.pick(&["hlv", "hlvx", "hsv"]);
    let widths: &[u64] = if kind == "hlvx" {
        &[2, 4]
    } else {
        &[1, 2, 4, 8]
    };
    let width = rng.pick(widths);
    let slip = u64::from(rng.below(16) == 0);
    let address = rng.pick(&PAGES) + 8 * rng.below(8) + slip;
    match kind {
        "hlv" => (
            format!("hlv {width} {} {address:x}", rng.below(2)),
            format!("load {address:x} {width}"),
        ),
        "hlvx" => (
            format!("hlvx {width} {address:x}"),
            format!("load {address:x} {width}"),
        ),
        _ => (
            format!("hsv {width} {address:x} {:x}", rng.bits()),
            format!("store {address:x} {width}"),
        ),
    }
}

/// The entries of both stages, by address: at the second stage pointers, or leaves of each size up to 1 GiB; at the first a leaf of
/// 1 GiB for guest physical addresses, and one for machine addresses. The first entry of either root points to the root again, for the
/// levels of deeper tables. Some of them have a flaw.
fn entries(rng: &mut Rng, privilege: u64) -> Vec<(u64, u64)> {
    let (root, table) = (BASE + 0x28, BASE + 0x4000);
    let own = if privilege == 0 { 0xdf } else { 0xcf };
    let mut entries = vec![
        (BASE, 0x2000_0001),
        (BASE + 0x6000, 0x5000_1801),
        (root, rng.pick(&[0x2000_1001, 0x2000_1001, 0x2000_00df])),
        (table, rng.pick(&[0x2000_1401, 0x2000_1401, 0x2000_00df])),
        (BASE + 0x6008, 0x5000_0000 | own),
        (BASE + 0x6010, 0x2000_0000 | own),
    ];
    entries.extend((4..9).map(|page| {
        let leaf = 0x2000_00df + 0x400 * page;
        (BASE + 0x5000 + 8 * page, leaf)
    }));
    for _ in 0..rng.below(4) {
        let place = rng.below(entries.len() as u64) as usize;
        let (_, entry) = &mut entries[place];
        *entry = *entry & !0xff | rng.pick(&FLAWED);
    }
    entries
}

/// What vsatp or hgatp holds: a root with tables of some depth, or Bare.
fn tables(rng: &mut Rng, root: u64) -> u64 {
    if rng.chance(20) {
        return 0;
    }
    rng.pick(&[8, 8, 9, 10]) << 60 | root
}

/// What an access asks of the hart: stages, SUM and MXR of the guest and of the host, SPVP, HU; and medeleg.
fn registers(rng: &mut Rng, privilege: u64) -> String {
    let mut lines = String::new();
    let mut hold = |register: u64, value: u64| {
        writeln!(lines, "reg {register:x} {value:x}").expect("text is written");
    };
    let root = if rng.chance(90) {
        0x14_0006
    } else {
        rng.pick(&[0x8_0006, 0x2000_0000])
    };
    hold(0x280, tables(rng, root));
    hold(0x680, tables(rng, BASE >> 12));
    hold(0x200, 0x2_0000_0000 | rng.below(4) << 18);
    hold(0x300, 0xa_0000_0000 | rng.below(4) << 18);
    hold(0x600, 0x2_0000_0200 | privilege << 8);
    hold(0x302, rng.pick(&[0, 0xa0_a0f0]));
    lines
}

/// What was answered to a line, and what is said about it.
struct Said {
    answers: Vec<String>,
    lines: Vec<String>,
}

impl Said {
    /// The lines that begin so.
    fn with(&self, beginning: &str) -> Vec<&str> {
        let lines = self.lines.iter().map(String::as_str);
        lines.filter(|line| line.starts_with(beginning)).collect()
    }
}

/// The events of a script, each with its answers.
fn explained(folder: &Folder, script: &str) -> Vec<Said> {
    std::fs::write(folder.path().join("script.replay"), script).expect("the script is written");
    let output = Command::new(env!("CARGO_BIN_EXE_replay"))
        .current_dir(folder.path())
        .args(["--explain", "script.replay"])
        .output();
    let text = output.expect("the program ends").stdout;
    let text = String::from_utf8(text).expect("explanations are text");
    let mut events: Vec<Said> = Vec::new();
    let mut answers = Vec::new();
    for line in text.lines() {
        match line.strip_prefix("# ") {
            None => answers.push(line.to_owned()),
            Some(first) if first.starts_with("line ") => events.push(Said {
                answers: std::mem::take(&mut answers),
                lines: Vec::new(),
            }),
            Some(more) => {
                let event = events.last_mut().expect("a line comes first");
                event.lines.push(more.to_owned());
            }
        }
    }
    events
}

fn number(word: &str) -> u64 {
    u64::from_str_radix(word, 16).unwrap_or_else(|_| panic!("{word} is no number"))
}

/// The image, as the script and what is said make it.
struct Memory(Vec<u8>);

impl Memory {
    fn place(&mut self, address: u64, width: u64) -> &mut [u8] {
        let at = (address - BASE) as usize;
        &mut self.0[at..at + width as usize]
    }

    fn get(&mut self, address: u64, width: u64) -> u64 {
        let bytes = self.place(address, width).iter().rev();
        bytes.fold(0, |number, byte| number << 8 | u64::from(*byte))
    }

    fn put(&mut self, address: u64, width: u64, value: u64) {
        let bytes = &value.to_le_bytes()[..width as usize];
        self.place(address, width).copy_from_slice(bytes);
    }

    /// Holds what is said of an access that was done against the image, and stores what is said to be stored.
    fn transfer(&mut self, event: &str, answer: &str, reached: &str) {
        let asked: Vec<&str> = event.split(' ').collect();
        let width = number(asked[1]);
        let low = |value: u64| value << (64 - 8 * width) >> (64 - 8 * width);
        let signed = |value: u64| ((value << (64 - 8 * width)) as i64 >> (64 - 8 * width)) as u64;
        let (address, words) = reached
            .split_once(": ")
            .expect("an address and what is there");
        let (address, held) = (number(address), self.get(number(address), width));
        let expected = match (asked[0], asked[2]) {
            ("hsv", _) => {
                let value = low(number(asked[3]));
                self.put(address, width, value);
                assert_eq!(answer, "ok");
                format!("{value:x} stored there, it held {held:x}")
            }
            (_, flag) => {
                let sign = asked[0] == "hlv" && flag == "1";
                let value = if sign { signed(held) } else { held };
                assert_eq!(answer, format!("value {value:x}"), "{event}");
                let how = if sign { "sign" } else { "zero" };
                match width {
                    8 => format!("{held:x} there"),
                    _ => format!("{held:x} there, {how}-extended to {value:x}"),
                }
            }
        };
        assert_eq!(words, expected, "{event}");
    }

    /// Holds the entries read against the image.
    fn check_reads(&mut self, said: &Said) {
        for read in said.answers[1..].iter().map(|line| &line["read ".len()..]) {
            let words: Vec<u64> = read.split(' ').map(number).collect();
            assert_eq!(self.get(words[2], 8), words[3]);
        }
    }
}

/// That the guest's own access goes the same way and ends alike.
fn same_way(event: &str, own: &Said, said: &Said) {
    assert_eq!(own.answers[1..], said.answers[1..], "{event}");
    for beginning in ["first stage", "second stage", "why: "] {
        assert_eq!(own.with(beginning), said.with(beginning), "{event}");
    }
    let fault = own.lines.iter().find(|line| line.contains("): value "));
    let faulted = said.lines.iter().find(|line| line.contains("): value "));
    assert_eq!(fault, faulted, "{event}");
    if let [address] = own.with("it reaches ")[..] {
        let [reached] = said.with("it reaches ")[..] else {
            panic!("{event}: {:?}", said.lines);
        };
        assert!(reached.starts_with(&format!("{address}: ")), "{event}");
    }
}

#[test]
fn hypervisor_loads_and_stores_go_the_guests_way() {
    let folder = Folder::new().expect("a folder is made");
    let mut rng = Rng::new(3);
    let mut script = format!("image {BASE:x} {LENGTH:x}\n");
    let mut rounds = Vec::new();
    for _ in 0..4000 {
        let (privilege, mode) = (rng.below(2), rng.pick(&["0 3", "0 1", "0 0"]));
        let entries = entries(&mut rng, privilege);
        for (address, entry) in &entries {
            writeln!(script, "put {address:x} {entry:x}").expect("text is written");
        }
        let (registers, (event, own)) = (registers(&mut rng, privilege), access(&mut rng));
        script += &format!("hart 1 {privilege} 0\n{registers}{own}\n");
        script += &format!("hart {mode} 0\n{registers}{event} 0\n");
        rounds.push((entries, event));
    }
    let said = explained(&folder, &script);
    let mut memory = Memory(vec![0; LENGTH as usize]);
    let mut done = 0;
    assert_eq!(said.len(), 2 * rounds.len());
    for (pair, (entries, event)) in said.chunks_exact(2).zip(&rounds) {
        for (address, entry) in entries {
            memory.put(*address, 8, *entry);
        }
        memory.check_reads(&pair[1]);
        if !event.starts_with("hlvx") {
            same_way(event, &pair[0], &pair[1]);
        }
        for line in pair[1].with("it reaches ") {
            let reached = line.strip_prefix("it reaches machine address ");
            memory.transfer(event, &pair[1].answers[0], reached.expect("an address"));
            done += 1;
        }
    }
    assert!((500..3500).contains(&done), "{done}");
}
