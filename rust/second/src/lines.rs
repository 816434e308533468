//! The lines of a script: from an input that may wait, and never more than one line of it.

use std::io::{self, ErrorKind, Read};
use std::ops::Range;

use crate::script::{Bad, Trouble};

/// The longest line, its line feed not counted: 16 MiB. A longer one is bad.
pub const LONGEST_LINE: usize = 1 << 24;

/// How much is asked of the input at once.
const BUFFER: usize = 1 << 16;

/// The lines of an input, one after the other.
pub struct Lines<R> {
    input: R,
    buffer: Vec<u8>,
    /// What of the buffer belongs to lines to come.
    unread: Range<usize>,
    line: Vec<u8>,
}

impl<R: Read> Lines<R> {
    /// The lines of this input, from its first.
    pub fn new(input: R) -> Lines<R> {
        Lines {
            input,
            buffer: vec![0; BUFFER],
            unread: 0..0,
            line: Vec::new(),
        }
    }

    /// The next line without its line feed, or why it is bad; none at the end. A bad line need not have been read to its end.
    ///
    /// `before_waiting` is called before each read of the input, which may wait for someone who waits for an answer.
    pub fn next(
        &mut self,
        mut before_waiting: impl FnMut() -> io::Result<()>,
    ) -> Result<Option<Result<&[u8], Bad>>, Trouble> {
        self.line.clear();
        let mut comment = false;
        loop {
            if self.unread.is_empty() {
                before_waiting().map_err(Trouble::Output)?;
                self.fill().map_err(Trouble::Input)?;
            }
            let bytes = &self.buffer[self.unread.clone()];
            let newline = bytes.iter().position(|byte| *byte == b'\n');
            let piece = &bytes[..newline.unwrap_or(bytes.len())];
            if self.line.len() + piece.len() > LONGEST_LINE {
                return Ok(Some(Err(too_long())));
            }
            if nul_before_comment(piece, &mut comment) {
                return Ok(Some(Err(looks_raw())));
            }
            if self.line.try_reserve(piece.len()).is_err() {
                return Ok(Some(Err(no_memory())));
            }
            self.line.extend(piece);
            let at_end = bytes.is_empty();
            self.unread.start += piece.len() + usize::from(newline.is_some());
            if newline.is_some() || (at_end && !self.line.is_empty()) {
                return Ok(Some(Ok(&self.line)));
            }
            if at_end {
                return Ok(None);
            }
        }
    }

    /// Reads what the input has at hand, or waits until it has something. Nothing is unread afterwards at the input's end.
    fn fill(&mut self) -> io::Result<()> {
        loop {
            match self.input.read(&mut self.buffer) {
                Ok(length) => {
                    self.unread = 0..length;
                    return Ok(());
                }
                Err(error) if error.kind() == ErrorKind::Interrupted => {}
                Err(error) => return Err(error),
            }
        }
    }
}

/// Whether a piece of a line has a NUL byte before the line's first `#`. `comment` says whether that `#` has been, and is kept
/// for the pieces to come.
fn nul_before_comment(piece: &[u8], comment: &mut bool) -> bool {
    if *comment {
        return false;
    }
    let found = piece.iter().find(|byte| matches!(byte, b'#' | 0));
    *comment = found == Some(&b'#');
    found == Some(&0)
}

fn too_long() -> Bad {
    Bad(format!("the line is longer than {LONGEST_LINE:x} bytes"))
}

fn no_memory() -> Bad {
    Bad("there is no memory for the line".to_string())
}

/// A NUL byte outside a comment makes any line bad: as a word, as a number and in a path.
fn looks_raw() -> Bad {
    Bad(
        "a NUL byte: this looks like a raw image; a script names one by \"file BASE PATH\""
            .to_string(),
    )
}

#[cfg(test)]
mod tests {
    use super::*;

    /// An input that gives these pieces, one for each read.
    struct Pieces<'a>(std::slice::Iter<'a, &'a [u8]>);

    impl Read for Pieces<'_> {
        fn read(&mut self, buffer: &mut [u8]) -> io::Result<usize> {
            let piece = self.0.next().copied().unwrap_or(b"");
            if piece == b"interrupted" {
                return Err(ErrorKind::Interrupted.into());
            }
            buffer[..piece.len()].copy_from_slice(piece);
            Ok(piece.len())
        }
    }

    /// The lines of these pieces, `bad` for a bad one, and how often the input was asked before each.
    fn lines(pieces: &[&[u8]]) -> Vec<(String, u32)> {
        let mut lines = Lines::new(Pieces(pieces.iter()));
        let mut found = Vec::new();
        loop {
            let mut reads = 0;
            let next = lines.next(|| {
                reads += 1;
                Ok(())
            });
            match next.unwrap() {
                None => return found,
                Some(Ok(line)) => found.push((line.escape_ascii().to_string(), reads)),
                Some(Err(_)) => {
                    found.push(("bad".to_string(), reads));
                    return found;
                }
            }
        }
    }

    fn found(expected: &[(&str, u32)]) -> Vec<(String, u32)> {
        let owned = expected.iter();
        owned
            .map(|(line, reads)| (line.to_string(), *reads))
            .collect()
    }

    #[test]
    fn lines_in_pieces() {
        assert_eq!(lines(&[]), []);
        assert_eq!(lines(&[b"\n"]), found(&[("", 1)]));
        assert_eq!(lines(&[b"a\n\nb"]), found(&[("a", 1), ("", 0), ("b", 1)]));
        assert_eq!(
            lines(&[b"a", b"b\nc", b"interrupted", b"\n", b"d\n"]),
            found(&[("ab", 2), ("c", 1), ("d", 1)])
        );
    }

    #[test]
    fn a_nul_byte_before_a_comment_is_seen_at_once() {
        assert_eq!(lines(&[b"a\0", b"never"]), found(&[("bad", 1)]));
        assert_eq!(lines(&[b"a\nb", b"c\0"]), found(&[("a", 1), ("bad", 1)]));
        assert_eq!(
            lines(&[b"a#", b"\0\n", b"\0"]),
            found(&[("a#\\x00", 2), ("bad", 1)])
        );
        assert_eq!(lines(&[b"\n\0#\n"]), found(&[("", 1), ("bad", 0)]));
    }

    #[test]
    fn the_longest_line() {
        for (length, good) in [(LONGEST_LINE, true), (LONGEST_LINE + 1, false)] {
            for end in [&b"\n"[..], b""] {
                let script = [vec![b' '; length], end.to_vec()].concat();
                let mut lines = Lines::new(&script[..]);
                let line = lines.next(|| Ok(())).unwrap().unwrap();
                assert_eq!(line.map(<[u8]>::len).ok(), good.then_some(length));
            }
        }
    }

    #[test]
    fn a_longer_line_is_not_held() {
        let mut lines = Lines::new(io::repeat(b' '));
        assert!(lines.next(|| Ok(())).unwrap().unwrap().is_err());
        assert!(lines.line.len() <= LONGEST_LINE);
    }

    #[test]
    fn what_keeps_it_from_reading_is_told() {
        let mut lines = Lines::new(&b"a"[..]);
        let closed = lines.next(|| Err(ErrorKind::BrokenPipe.into()));
        assert!(matches!(closed, Err(Trouble::Output(_))));
        struct Unreadable;
        impl Read for Unreadable {
            fn read(&mut self, _: &mut [u8]) -> io::Result<usize> {
                Err(ErrorKind::IsADirectory.into())
            }
        }
        let unreadable = Lines::new(Unreadable).next(|| Ok(())).map(|_| ());
        assert!(matches!(unreadable, Err(Trouble::Input(_))));
    }
}
