//! The longest line, 16 MiB, and the shortest that is too long.

use second::lines::LONGEST_LINE;

use crate::scribe::Scribe;

/// The kinds of long lines: how many bytes they are over the longest line, what they begin with, and what they go on with.
const KINDS: [(usize, &[u8], u8); 6] = [
    (0, b"", b' '),
    (0, b"# ", b'x'),
    (0, b"#\0", 0),
    (1, b"", b' '),
    (1, b"# ", b'x'),
    (1, b"wfi 0", b' '),
];

/// How many kinds there are.
pub const COUNT: u64 = KINDS.len() as u64;

/// A long line of one of the kinds in turn, and a line behind it.
pub fn long_line(scribe: &mut Scribe, place: u64) {
    let (over, begin, rest) = KINDS[(place % COUNT) as usize];
    let mut line = begin.to_vec();
    line.resize(LONGEST_LINE + over, rest);
    scribe.lines.push(line);
    scribe.lines.push(b"read 300 0".to_vec());
}

#[cfg(test)]
mod tests {
    use super::*;
    use crate::program::{model, Folder, InProcess, Outcome, Program, Status};

    #[test]
    fn half_of_them_are_bad() {
        let folder = Folder::new().unwrap();
        let program = InProcess {
            name: "the model",
            perform: model,
            folder: &folder,
        };
        for place in 0..COUNT {
            let (mut script, _) = crate::generate::long_script(1, place, folder.path());
            script.explained = false;
            let (output, status) = if place < 3 {
                (&b"ok\nvalue a00000000\n"[..], Status::Exit(0))
            } else {
                (&b"ok\nerror 2\n"[..], Status::Exit(1))
            };
            let expected = Outcome {
                output: output.to_vec(),
                status,
            };
            assert_eq!(program.run(&script).unwrap(), expected, "{place}");
        }
    }
}
