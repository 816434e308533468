//! Scripts that no one would write: random bytes, and good scripts damaged in many ways. A program must end each of them by
//! itself, with the answers and the `error` line that REPLAY.md asks for.

use std::io;
use std::path::Path;

use second::lines::LONGEST_LINE;

use crate::generate::{bad_script, script};
use crate::program::{Script, FILES};
use crate::rng::Rng;

/// Good scripts that are damaged, beside the generated ones.
#[derive(Clone, Debug, Default)]
pub struct Corpus(Vec<Vec<u8>>);

impl Corpus {
    /// The `.replay` files of a folder, in the order of their names.
    pub fn of_folder(folder: &Path) -> io::Result<Corpus> {
        let mut paths = Vec::new();
        for entry in std::fs::read_dir(folder)? {
            let path = entry?.path();
            if path.extension().is_some_and(|end| end == "replay") {
                paths.push(path);
            }
        }
        paths.sort();
        let scripts: io::Result<Vec<_>> = paths.iter().map(std::fs::read).collect();
        Ok(Corpus(scripts?))
    }
}

/// Numbers at limits: of fields, of the image, of the two kinds of address, of a word of 32 and of 64 bits.
const LIMITS: [&[u8]; 34] = [
    b"0",
    b"1",
    b"2",
    b"3",
    b"4",
    b"7",
    b"8",
    b"9",
    b"fff",
    b"1000",
    b"1001",
    b"ffff",
    b"3fffff8",
    b"4000000",
    b"4001000",
    b"8000000",
    b"80000000",
    b"ffffffff",
    b"100000000",
    b"3fffffffff",
    b"4000000000",
    b"1ffffffffff",
    b"20000000000",
    b"fffffffffff000",
    b"ffffffffffffff",
    b"100000000000000",
    b"7fffffffffffffff",
    b"8000000000000000",
    b"fffffffffffff000",
    b"fffffffffffffff8",
    b"ffffffffffffffff",
    b"FFFFFFFFFFFFFFFF",
    b"0000000000000000",
    b"0000000000000008",
];

/// What is no number.
const NO_NUMBERS: [&[u8]; 14] = [
    b"10000000000000000",
    b"00000000000000000",
    b"-1",
    b"+1",
    b"0x1",
    b"1_0",
    b"1.0",
    b"g",
    b"1h",
    b"\0",
    b"1\0",
    b"\xef\xbc\x91",
    b"\xd9\xa1",
    b"1,",
];

/// Words of the language and near misses.
const WORDS: [&[u8]; 34] = [
    b"image",
    b"file",
    b"put",
    b"hart",
    b"reg",
    b"fetch",
    b"load",
    b"store",
    b"read",
    b"write",
    b"set",
    b"clear",
    b"trap",
    b"ecall",
    b"ebreak",
    b"mret",
    b"sret",
    b"wfi",
    b"sfence.vma",
    b"hfence.vvma",
    b"hfence.gvma",
    b"interrupt",
    b"hlv",
    b"hlvx",
    b"hsv",
    b"hsvx",
    b"show",
    b"Show",
    b"loads",
    b"interrupts",
    b"hfence",
    b"error",
    b"exit",
    b"#",
];

/// What separates words, and what only looks as if it did.
const BLANKS: [&[u8]; 10] = [
    b" ",
    b"  ",
    b"\t",
    b"\r",
    b" \t\r ",
    b"\x0b",
    b"\x0c",
    b"\xc2\xa0",
    b"#",
    b"\n",
];

/// The script with this place in the run of this seed. `folder` is the folder that it is run in.
pub fn fuzzed(seed: u64, place: u64, corpus: &Corpus, folder: &Path) -> Script {
    let mut rng = Rng::new(seed ^ place.wrapping_mul(0xa076_1d64_78bd_642f));
    let mut bytes = match rng.below(10) {
        0 => random_bytes(&mut rng),
        1 => random_words(&mut rng),
        _ => good_script(&mut rng, corpus, folder),
    };
    for _ in 0..rng.below(4) {
        damage(&mut rng, &mut bytes, corpus, folder);
    }
    let (through_input, explained) = (rng.chance(40), rng.chance(40));
    split(bytes, through_input, explained)
}

/// The script with these bytes.
fn split(bytes: Vec<u8>, through_input: bool, explained: bool) -> Script {
    let mut lines: Vec<Vec<u8>> = bytes
        .split(|byte| *byte == b'\n')
        .map(<[u8]>::to_vec)
        .collect();
    let last_newline = bytes.ends_with(b"\n");
    if last_newline || bytes.is_empty() {
        lines.pop();
    }
    Script {
        lines,
        last_newline,
        through_input,
        explained,
    }
}

fn random_bytes(rng: &mut Rng) -> Vec<u8> {
    let length = rng.below(2000);
    (0..length).map(|_| rng.bits() as u8).collect()
}

/// Words and numbers without order.
fn random_words(rng: &mut Rng) -> Vec<u8> {
    let mut bytes = Vec::new();
    for _ in 0..rng.below(200) {
        let word: &[u8] = match rng.below(8) {
            0..=2 => rng.pick(&WORDS),
            3..=5 => rng.pick(&LIMITS),
            6 if rng.chance(10) => rng.pick(&NO_NUMBERS),
            _ => b"\n",
        };
        bytes.extend(word);
        bytes.extend(match rng.below(40) {
            0 => rng.pick(&BLANKS),
            _ => b" ",
        });
    }
    bytes
}

fn good_script(rng: &mut Rng, corpus: &Corpus, folder: &Path) -> Vec<u8> {
    match rng.below(4) {
        0 => bad_script(rng.bits(), rng.below(1000), folder).0.bytes(),
        1 => script(rng.bits(), 0, 1, folder).0.bytes(),
        _ if corpus.0.is_empty() => script(rng.bits(), 0, 1, folder).0.bytes(),
        _ => corpus.0[rng.below(corpus.0.len() as u64) as usize].clone(),
    }
}

/// A place in the bytes, their end included.
fn place_in(rng: &mut Rng, bytes: &[u8]) -> usize {
    rng.below(bytes.len() as u64 + 1) as usize
}

/// Damages a script in one way.
fn damage(rng: &mut Rng, bytes: &mut Vec<u8>, corpus: &Corpus, folder: &Path) {
    match rng.below(12) {
        0 => bytes.truncate(place_in(rng, bytes)),
        1 | 2 => change_bytes(rng, bytes),
        3 | 4 => change_numbers(rng, bytes, &LIMITS),
        5 => change_numbers(rng, bytes, &NO_NUMBERS),
        6 => change_line_ends(rng, bytes),
        7 => move_lines(rng, bytes),
        8 => {
            let other = good_script(rng, corpus, folder);
            let (at, from) = (place_in(rng, bytes), place_in(rng, &other));
            bytes.truncate(at);
            bytes.extend(&other[from..]);
        }
        9 => insert_line(rng, bytes),
        10 if rng.chance(20) => insert_long(rng, bytes),
        _ => {
            let at = place_in(rng, bytes);
            let word: &[u8] = match rng.below(3) {
                0 => rng.pick(&WORDS),
                1 => rng.pick(&BLANKS),
                _ => b"\0",
            };
            bytes.splice(at..at, word.iter().copied());
        }
    }
}

/// Flips bits, replaces, drops and doubles bytes.
fn change_bytes(rng: &mut Rng, bytes: &mut Vec<u8>) {
    for _ in 0..1 + rng.below(6) {
        let at = place_in(rng, bytes);
        if at == bytes.len() {
            bytes.push(rng.bits() as u8);
            continue;
        }
        match rng.below(4) {
            0 => bytes[at] ^= 1 << rng.below(8),
            1 => bytes[at] = rng.bits() as u8,
            2 => {
                bytes.remove(at);
            }
            _ => bytes.insert(at, bytes[at]),
        }
    }
}

/// Puts other numbers in the place of some: 1 in 8 of all, or of one line.
fn change_numbers(rng: &mut Rng, bytes: &mut Vec<u8>, numbers: &[&'static [u8]]) {
    let text = std::mem::take(bytes);
    let one_line = rng.chance(50).then(|| {
        let lines = text.split(|byte| *byte == b'\n').count();
        rng.below(lines as u64) as usize
    });
    for (place, line) in text.split_inclusive(|byte| *byte == b'\n').enumerate() {
        if one_line.is_some_and(|only| only != place) {
            bytes.extend(line);
            continue;
        }
        for (word, piece) in line.split_inclusive(|byte| *byte == b' ').enumerate() {
            let digits = piece
                .iter()
                .take_while(|byte| byte.is_ascii_hexdigit())
                .count();
            if word > 0 && digits > 0 && rng.below(8) == 0 {
                bytes.extend(rng.pick(numbers));
                bytes.extend(&piece[digits..]);
            } else {
                bytes.extend(piece);
            }
        }
    }
}

/// Carriage returns, missing and doubled line feeds, a byte order mark, no end.
fn change_line_ends(rng: &mut Rng, bytes: &mut Vec<u8>) {
    let end: &[u8] = match rng.below(6) {
        0 | 1 => b"\r\n",
        2 => b"\r",
        3 => b"\n\n",
        4 => b"\0\n",
        _ => b"\n",
    };
    let share = rng.pick(&[100, 10]);
    let text = std::mem::take(bytes);
    if rng.chance(10) {
        bytes.extend(b"\xef\xbb\xbf");
    }
    for byte in text {
        if byte == b'\n' && rng.chance(share) {
            bytes.extend(end);
        } else {
            bytes.push(byte);
        }
    }
    if rng.chance(50) && bytes.ends_with(b"\n") {
        bytes.pop();
    }
}

/// Drops, doubles and swaps lines.
fn move_lines(rng: &mut Rng, bytes: &mut Vec<u8>) {
    let mut lines: Vec<&[u8]> = bytes.split(|byte| *byte == b'\n').collect();
    for _ in 0..1 + rng.below(8) {
        let count = lines.len() as u64;
        let (one, other) = (rng.below(count) as usize, rng.below(count) as usize);
        match rng.below(3) {
            0 if count > 1 => {
                lines.remove(one);
            }
            1 => lines.insert(one, lines[other]),
            _ => lines.swap(one, other),
        }
    }
    *bytes = lines.join(&b'\n');
}

/// A line that is rare in scripts, between two others.
fn insert_line(rng: &mut Rng, bytes: &mut Vec<u8>) {
    let starts: Vec<usize> = (0..=bytes.len())
        .filter(|at| *at == 0 || bytes[at - 1] == b'\n')
        .collect();
    let at = rng.pick(&starts);
    let word: &[u8] = rng.pick(&[&b"image"[..], b"put", b"file", b"hart"]);
    let last: &[u8] = match word {
        b"file" => path(rng),
        b"hart" => b"1 0",
        _ => rng.pick(&LIMITS),
    };
    let mut line = [word, rng.pick(&LIMITS), last].join(&b' ');
    line.push(b'\n');
    bytes.splice(at..at, line);
}

/// The path of a file, of a folder, of no file.
fn path(rng: &mut Rng) -> &'static [u8] {
    match rng.below(2) {
        0 => rng.pick(&FILES).as_bytes(),
        _ => rng.pick(&[
            &b"."[..],
            b"/",
            b"..",
            b"/dev/null",
            b"a\0b",
            b"\xff",
            b"script.replay",
        ]),
    }
}

/// A very long run of one thing: blanks, digits, a word, a comment, lines.
fn insert_long(rng: &mut Rng, bytes: &mut Vec<u8>) {
    let at = place_in(rng, bytes);
    let piece: &[u8] = rng.pick(&[
        &b" "[..],
        b"0",
        b"f",
        b"x",
        b"#",
        b"\n",
        b"\r",
        b"\0",
        b" 0",
        b"wfi 0\n",
    ]);
    let length = match rng.below(20) {
        0 => rng.pick(&[LONGEST_LINE, LONGEST_LINE + 1]),
        _ => rng.pick(&[100, 4096, 65_536, 300_000]),
    };
    bytes.splice(at..at, piece.repeat(length / piece.len()));
}

#[cfg(test)]
mod tests {
    use super::*;
    use crate::program::Folder;

    #[test]
    fn the_same_seed_gives_the_same_script() {
        let folder = Folder::new().unwrap();
        let corpus = Corpus::default();
        let make = |seed, place| fuzzed(seed, place, &corpus, folder.path());
        for place in 0..50 {
            assert_eq!(make(1, place), make(1, place));
        }
        assert!((0..50).any(|place| make(1, place) != make(2, place)));
    }

    #[test]
    fn bytes_stay_when_they_are_split_into_lines() {
        for bytes in [
            &b""[..],
            b"\n",
            b"a",
            b"a\n",
            b"a\n\n",
            b"\n\na\r\n\0",
            b"a\nb",
        ] {
            assert_eq!(split(bytes.to_vec(), false, false).bytes(), bytes);
        }
    }
}
