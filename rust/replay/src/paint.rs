//! Colours for a terminal.

use std::ffi::OsStr;
use std::io::{self, IsTerminal};

/// Colours text, or leaves it plain.
#[derive(Clone, Copy)]
pub struct Paint {
    on: bool,
}

impl Paint {
    /// As standard output and the environment have it.
    pub fn for_output() -> Self {
        let variable = |name| std::env::var_os(name).unwrap_or_default();
        let terminal = io::stdout().is_terminal();
        Paint {
            on: wanted(terminal, &variable("NO_COLOR"), &variable("TERM")),
        }
    }

    /// The first stage.
    pub fn first(self, text: &str) -> String {
        self.coloured("36", text)
    }

    /// The second stage.
    pub fn second(self, text: &str) -> String {
        self.coloured("35", text)
    }

    /// An answer as it was hoped for.
    pub fn good(self, text: &str) -> String {
        self.coloured("32", text)
    }

    /// A fault, a refusal and why.
    pub fn bad(self, text: &str) -> String {
        self.coloured("31", text)
    }

    fn coloured(self, colour: &str, text: &str) -> String {
        if self.on {
            format!("\x1b[{colour}m{text}\x1b[0m")
        } else {
            text.to_owned()
        }
    }
}

/// Colours are for a terminal that has them, unless NO_COLOR asks for none.
fn wanted(terminal: bool, no_color: &OsStr, term: &OsStr) -> bool {
    terminal && no_color.is_empty() && !term.is_empty() && term != "dumb"
}

#[cfg(test)]
mod tests {
    use super::*;

    #[test]
    fn colours_are_for_terminals() {
        let wanted = |terminal, no_color: &str, term: &str| {
            wanted(terminal, no_color.as_ref(), term.as_ref())
        };
        assert!(wanted(true, "", "xterm"));
        assert!(!wanted(false, "", "xterm"));
        assert!(!wanted(true, "1", "xterm"));
        assert!(!wanted(true, "", "dumb"));
        assert!(!wanted(true, "", ""));
    }

    #[test]
    fn plain_text_stays() {
        assert_eq!(Paint { on: false }.bad("why"), "why");
        assert_eq!(Paint { on: true }.bad("why"), "\x1b[31mwhy\x1b[0m");
    }
}
