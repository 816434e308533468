//! `--step` in a terminal: a screen for a translation as it stands, pages for other answers, and keys.

use crate::frame::{Frame, Line};
use crate::input::Stop;
use crate::keys::{keys, Key};
use crate::layout::Window;
use crate::paint::Paint;
use crate::step::{Go, Shown, Viewer};
use crate::terminal::{Heard, Terminal};
use std::collections::VecDeque;
use std::io::Write;

const KEYS: &str = "Enter: next  e: end  ?: help  q: leave";
const KEYS_AT_END: &str = "Enter: on  ?: help  q: leave";

const HELP: [&str; 10] = [
    "A key for each entry that a translation reads.",
    "",
    "  Enter, space, any other key: the next entry; at its end, on in the script",
    "  e: to the end of this translation, or of these answers",
    "  ?: this help",
    "  q: leave; the answers so far are written then",
    "",
    "  *: the entry just read; >: the one that is next",
    "  [N]: the index in its table, then the address",
    "  guest table: its address is guest physical",
];

pub struct Screen {
    terminal: Terminal,
    paint: Paint,
    /// The script's name.
    name: String,
    /// Keys that were typed and not yet looked at.
    typed: VecDeque<Key>,
    /// What was said about other events since the last translation.
    said: Vec<Line>,
    /// The answers so far, as they are without `--step`.
    answers: Vec<u8>,
}

impl Screen {
    pub fn new(terminal: Terminal, paint: Paint, name: String) -> Self {
        Screen {
            terminal,
            paint,
            name,
            typed: VecDeque::new(),
            said: Vec::new(),
            answers: Vec::new(),
        }
    }

    /// Gives the terminal back; the answers so far.
    pub fn close(self) -> Vec<u8> {
        self.answers
    }

    fn window(&self) -> Window {
        let (columns, rows) = self.terminal.size();
        Window {
            paint: self.paint,
            columns,
            rows,
        }
    }

    /// Draws a screen, and again whenever its size changes, until a key is pressed.
    fn ask(&mut self, lines: impl Fn(Window) -> Vec<String>) -> Result<Key, Stop> {
        loop {
            let window = self.window();
            self.terminal
                .draw(&lines(window))
                .map_err(Stop::Answers)?;
            match self.key()? {
                Some(key) => return Ok(key),
                None => continue,
            }
        }
    }

    /// The same, with help.
    fn ask_helpfully(&mut self, lines: impl Fn(Window) -> Vec<String>) -> Result<Key, Stop> {
        loop {
            match self.ask(&lines)? {
                Key::Help => {
                    let help = HELP.map(Line::plain);
                    self.ask(|window| window.paged(&help, "Any key: back").0)?;
                }
                key => return Ok(key),
            }
        }
    }

    /// The next key; none where the screen has to be drawn again.
    fn key(&mut self) -> Result<Option<Key>, Stop> {
        if self.typed.is_empty() {
            let mut bytes = [0; 64];
            match self.terminal.wait(&mut bytes).map_err(Stop::Keys)? {
                Heard::Keys(count) => self.typed.extend(keys(&bytes[..count])),
                Heard::Closed => self.typed.push_back(Key::Leave),
                Heard::Redraw => {}
            }
        }
        Ok(self.typed.pop_front())
    }

    /// Shows what was said since the last translation.
    fn show_said(&mut self) -> Result<Go, Stop> {
        let said = std::mem::take(&mut self.said);
        let mut rest = &said[..];
        while !rest.is_empty() {
            let key = self.ask_helpfully(|window| window.paged(rest, KEYS).0)?;
            match key {
                Key::Leave => return Ok(Go::Leave),
                Key::End => break,
                Key::Press | Key::Help => {}
            }
            let (_, count) = self.window().paged(rest, KEYS);
            rest = &rest[count..];
        }
        Ok(Go::On)
    }
}

impl Viewer for Screen {
    fn answers(&mut self) -> &mut impl Write {
        &mut self.answers
    }

    fn say(&mut self, answer: &str) -> Result<(), Stop> {
        for line in answer.lines() {
            if !line.starts_with("# ") {
                self.answers.extend(line.bytes());
                self.answers.push(b'\n');
            }
            self.said.push(Line::plain(line));
        }
        Ok(())
    }

    fn show(&mut self, shown: &Shown<'_>) -> Result<Go, Stop> {
        if self.show_said()? == Go::Leave {
            return Ok(Go::Leave);
        }
        let frame = Frame::new(shown.stepper, shown.press.is_some());
        let title = format!("{}, line {}: {}", self.name, shown.line, shown.text);
        let ended = shown.stepper.place.end().is_some();
        let keys = if ended { KEYS_AT_END } else { KEYS };
        let key = self.ask_helpfully(|window| window.framed(&title, &frame, keys))?;
        Ok(match key {
            Key::Leave => Go::Leave,
            Key::End => Go::ToEnd,
            Key::Press | Key::Help => Go::On,
        })
    }

    fn finish(&mut self) -> Result<(), Stop> {
        self.show_said().map(|_| ())
    }
}
