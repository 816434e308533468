//! The script's lines.

use crate::script::Mistake;
use std::io::{self, BufRead, BufReader, Read, Write};

/// The longest line, in bytes, its line feed not counted: 16 MiB.
const LONGEST: usize = 0x100_0000;

/// What a NUL byte says: no word and no number has one.
const NO_TEXT: &str = "a NUL byte: this is no text but a raw image, it seems (or UTF-16); a script names an image by `file BASE PATH`";

/// Why a run ended before the script's end.
pub enum Stop {
    /// A bad line, by its number, and what is wrong with it.
    Bad(u64, Mistake),
    /// The script can't be read.
    Script(io::Error),
    /// The answers can't be written.
    Answers(io::Error),
}

/// A script, line by line.
pub struct Lines<R> {
    input: BufReader<R>,
    line: Vec<u8>,
    number: u64,
    /// Whether the line's comment has begun.
    commented: bool,
}

impl<R: Read> Lines<R> {
    pub fn new(input: R) -> Self {
        Lines {
            input: BufReader::with_capacity(1 << 16, input),
            line: Vec::new(),
            number: 0,
            commented: false,
        }
    }

    /// Goes on to the next line; false at the script's end. Before it waits for input it hands on the answers so far:
    /// whoever writes the script may wait for them.
    pub fn advance(&mut self, answers: &mut impl Write) -> Result<bool, Stop> {
        self.line.clear();
        self.number += 1;
        self.commented = false;
        loop {
            if self.input.buffer().is_empty() {
                answers.flush().map_err(Stop::Answers)?;
            }
            let held = match self.input.fill_buf() {
                Err(error) if error.kind() == io::ErrorKind::Interrupted => continue,
                held => held.map_err(Stop::Script)?,
            };
            if held.is_empty() {
                return Ok(!self.line.is_empty());
            }
            let end = held.iter().position(|&byte| byte == b'\n');
            let piece = &held[..end.unwrap_or(held.len())];
            let extended = extend(&mut self.line, piece, &mut self.commented);
            let used = piece.len() + usize::from(end.is_some());
            self.input.consume(used);
            extended.map_err(|mistake| self.bad(mistake))?;
            if end.is_some() {
                return Ok(true);
            }
        }
    }

    /// The line, without its line feed.
    pub fn line(&self) -> &[u8] {
        &self.line
    }

    /// Its number, from 1.
    pub fn number(&self) -> u64 {
        self.number
    }

    /// Says what is wrong with the line.
    pub fn bad(&self, mistake: Mistake) -> Stop {
        Stop::Bad(self.number, mistake)
    }
}

/// Extends a line by its next piece. One that is too long or is no text is refused at once: its end may never come.
fn extend(line: &mut Vec<u8>, piece: &[u8], commented: &mut bool) -> Result<(), Mistake> {
    let comment = piece.iter().position(|&byte| byte == b'#');
    let words = &piece[..comment.unwrap_or(piece.len())];
    let nul = words.iter().position(|&byte| byte == 0);
    if let (Some(at), false) = (nul, *commented) {
        return Err(Mistake::at(line.len() + at, NO_TEXT));
    }
    *commented |= comment.is_some();
    if line.len() + piece.len() > LONGEST {
        let sentence = format!("the line has more than {LONGEST:x} (hexadecimal) bytes");
        return Err(Mistake::at(LONGEST, sentence));
    }
    if line.try_reserve(piece.len()).is_err() {
        return Err(Mistake::at(line.len(), "there is no memory for the line"));
    }
    line.extend_from_slice(piece);
    Ok(())
}
