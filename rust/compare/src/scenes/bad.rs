//! Bad lines: each ends the run with `error LINE` and exit status 1.

use crate::scribe::Scribe;

/// Lines that are bad whatever the image is.
const ALWAYS_BAD: [&[u8]; 153] = [
    b"nonsense",
    b"Load 0 8",
    b"LOAD 0 8",
    b"Show",
    b"load",
    b"load 0",
    b"load 0 8 0",
    b"load 0 8 x",
    b"load g 8",
    b"load 0x10 8",
    b"load 10000000000000000 8",
    b"load 00000000000000000 8",
    b"load -1 8",
    b"load +1 8",
    b"load 1_0 8",
    b"load 1.0 8",
    b"load 0,8",
    b"load \"0\" 8",
    b"load 0 8;",
    b"load# 0 8",
    b"load 0#8",
    b"fetch",
    b"fetch 0",
    b"fetch 0 4 13",
    b"store 0",
    b"store 0 8 1",
    b"read",
    b"read 300",
    b"read 300 100000000",
    b"read 300 30002073 0",
    b"read #300 0",
    b"read q 0",
    b"read 300 0x73",
    b"write 300",
    b"write 300 0",
    b"write 300 0 100000000",
    b"write 300 0 30001073 0",
    b"set 300 0",
    b"set 300 0 1",
    b"set 300 0 2 0",
    b"set 300 0 10 0",
    b"set 300 0 ffffffffffffffff 0",
    b"set 300 0 1 100000000",
    b"set 300 0 1 30002073 0",
    b"clear 300 0",
    b"clear 300 0 1",
    b"clear 300 0 2 0",
    b"clear 300 0 100000001 0",
    b"clear 300 0 0 100000000",
    b"clear 300 0 1 30003073 0",
    b"trap",
    b"trap 0 0 0 0",
    b"trap 0 0 0 0 2",
    b"trap 0 0 0 0 0 0",
    b"trap 0 0 0 0 x",
    b"ecall 0",
    b"ecall 73",
    b"ecall x",
    b"ebreak 0",
    b"ebreak 100073",
    b"mret",
    b"mret 100000000",
    b"mret 130200073",
    b"mret 30200073 0",
    b"sret",
    b"sret 100000000",
    b"sret ffffffffffffffff",
    b"sret 10200073 0",
    b"wfi",
    b"wfi #10500073",
    b"wfi 100000000",
    b"wfi 00000000010500073",
    b"wfi 10500073 0",
    b"wfi 10500073g",
    b"sfence.vma",
    b"sfence.vma 100000000",
    b"sfence.vma 0 0",
    b"sfence 0",
    b"sfence .vma 0",
    b"hfence.vvma",
    b"hfence.vvma 100000000",
    b"hfence.vvma 22000073 0",
    b"hfence.gvma",
    b"hfence.gvma 100000000",
    b"hfence.gvma 8000000062000073",
    b"hfence.gvma 62000073 0",
    b"hfence 0",
    b"interrupt 0",
    b"interrupt x",
    b"interrupt interrupt",
    b"interrupts",
    b"Interrupt",
    b"hlv",
    b"hlv 1 0 0",
    b"hlv 1 0 0 0 0",
    b"hlv 1 2 0 0",
    b"hlv 1 10 0 0",
    b"hlv 1 ffffffffffffffff 0 0",
    b"hlv 1 100000001 0 0",
    b"hlv 1 0 0 100000000",
    b"hlv 1 x 0 0",
    b"Hlv 1 0 0 0",
    b"hlv.b 0 0",
    b"hlvx",
    b"hlvx 2 0",
    b"hlvx 2 0 0 0",
    b"hlvx 2 0 100000000",
    b"hlvx 2 0 1 64354073",
    b"hsv",
    b"hsv 1 0 0",
    b"hsv 1 0 0 0 0",
    b"hsv 1 0 0 100000000",
    b"hsv 1 0 0 ffffffffffffffff",
    b"hsv 1 0 0#0",
    b"show 0",
    b"show show",
    b"image",
    b"image 0",
    b"image 0 0 0",
    b"image 0 ffffffffffffffff",
    b"image 0 1000000000000000",
    b"hart",
    b"hart 0 0",
    b"hart 0 0 0 0",
    b"hart 0 0 q",
    b"reg",
    b"reg 300",
    b"reg 300 0 0",
    b"reg 100 0",
    b"reg 104 0",
    b"reg 144 0",
    b"reg 204 0",
    b"reg 244 0",
    b"reg 604 0",
    b"reg 607 0",
    b"reg 644 0",
    b"reg 645 444",
    b"reg 1303 444",
    b"reg e12 0",
    b"reg 0 0",
    b"reg fff 0",
    b"reg 1300 0",
    b"reg ffffffffffffffff 0",
    b"put 0",
    b"put 0 0 0",
    b"put ffffffffffffffff 0",
    b"file",
    b"file 0",
    b"file 0 \t\r",
    b"file x table.bin",
    b"file 0# table.bin",
    b"file 0 no such file",
    b"file 0 sub",
];

/// Lines with bytes that are no text.
const BYTES: [&[u8]; 12] = [
    b"\xff\xfe",
    b"\x00",
    b"load 0\x00 8",
    b"load 0 8\x00# a comment",
    b"\x00# a comment",
    b"file 0 table.bin\x00",
    b"file 0 odd #\x00",
    b"load\x0b0 8",
    b"load\x0c0 8",
    b"load \xd9\xa0 8",
    b"\xef\xbb\xbfshow",
    b"load\xc2\xa00 8",
];

/// Ends a script with a bad line.
pub fn end_badly(scribe: &mut Scribe) {
    let line = match scribe.rng.below(10) {
        0 => scribe.rng.pick(&BYTES).to_vec(),
        1 | 2 => put_outside(scribe),
        3 => random_bytes(scribe),
        _ => scribe.rng.pick(&ALWAYS_BAD).to_vec(),
    };
    end_with(scribe, line);
}

/// Ends two scripts of three with the lines that are always bad, one after the other by the script's place, and the third with
/// any bad line.
pub fn end_in_turn(scribe: &mut Scribe, place: u64) {
    if place % 3 == 2 {
        return end_badly(scribe);
    }
    let turn = (place / 3 * 2 + place % 3) as usize;
    end_with(scribe, ALWAYS_BAD[turn % ALWAYS_BAD.len()].to_vec());
}

/// Ends a script with this line and some after it, which must not be answered.
fn end_with(scribe: &mut Scribe, line: Vec<u8>) {
    scribe.lines.push(line);
    for line in [&b"show"[..], b"load 0 8", b"nonsense"] {
        if scribe.rng.chance(50) {
            scribe.lines.push(line.to_vec());
        }
    }
}

/// A `put` whose eight bytes do not all lie in the image.
fn put_outside(scribe: &mut Scribe) -> Vec<u8> {
    let base = scribe.session.image.base;
    let end = base.wrapping_add(scribe.session.image.bytes.len() as u64);
    let address = match scribe.rng.below(3) {
        0 => end.wrapping_sub(scribe.rng.below(8)),
        1 => end.wrapping_add(scribe.rng.below(16)),
        _ => base.wrapping_sub(1 + scribe.rng.below(16)),
    };
    if scribe
        .session
        .image
        .holds(second::address::Machine(address), 8)
    {
        return b"put ffffffffffffffff 0".to_vec();
    }
    format!("put {address:x} 0").into_bytes()
}

/// Random bytes that cannot be a good line: they begin with no word.
fn random_bytes(scribe: &mut Scribe) -> Vec<u8> {
    let mut line = vec![b'?'];
    for _ in 0..scribe.rng.below(40) {
        let byte = scribe.rng.bits() as u8;
        if byte != b'\n' {
            line.push(byte);
        }
    }
    line
}

#[cfg(test)]
mod tests {
    use super::*;
    use crate::program::Folder;
    use second::script::parse;

    /// Whether a line is bad after the lines so far.
    fn is_bad(scribe: &mut Scribe, line: &[u8]) -> bool {
        match parse(line) {
            Ok(None) => false,
            Ok(Some(line)) => scribe.session.perform(&line).is_err(),
            Err(_) => true,
        }
    }

    #[test]
    fn bad_lines_are_bad() {
        let folder = Folder::new().unwrap();
        for line in ALWAYS_BAD.iter().chain(&BYTES) {
            let mut scribe = Scribe::new(1, folder.path().to_path_buf());
            assert!(is_bad(&mut scribe, line), "{}", line.escape_ascii());
        }
    }

    #[test]
    fn in_turn_all_of_them_come() {
        let folder = Folder::new().unwrap();
        let ends = (0..ALWAYS_BAD.len() as u64 * 3 / 2).map(|place| {
            let mut scribe = Scribe::new(1, folder.path().to_path_buf());
            end_in_turn(&mut scribe, place);
            scribe.lines.swap_remove(0)
        });
        let ends: Vec<Vec<u8>> = ends.collect();
        for line in ALWAYS_BAD {
            assert!(ends.iter().any(|end| end == line));
        }
    }

    #[test]
    fn puts_outside_are_outside() {
        let folder = Folder::new().unwrap();
        for seed in 0..200 {
            let mut scribe = Scribe::new(seed, folder.path().to_path_buf());
            let image = scribe
                .rng
                .pick(&["image 1000 10", "image 0 0", "image 0 1000"]);
            scribe.line(image);
            let line = put_outside(&mut scribe);
            assert!(is_bad(&mut scribe, &line));
            let line = random_bytes(&mut scribe);
            assert!(is_bad(&mut scribe, &line));
        }
    }
}
