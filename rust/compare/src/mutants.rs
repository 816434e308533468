//! A program's source with one small change, compiled. For tests: they panic where that can't be done.

use std::ffi::{OsStr, OsString};
use std::fmt;
use std::path::Path;
use std::process::Command;

/// A change: the file, the text that is there once, and the text that takes its place.
pub struct Mutant(pub &'static str, pub &'static str, pub &'static str);

impl fmt::Display for Mutant {
    fn fmt(&self, text: &mut fmt::Formatter) -> fmt::Result {
        let Mutant(file, from, to) = self;
        write!(text, "{file}: {from:?} -> {to:?}")
    }
}

impl Mutant {
    /// The text of its file in a folder of sources, with the change. The tests at the file's end stay as they are.
    pub fn changed_text(&self, source: &Path) -> String {
        let Mutant(file, from, to) = self;
        let text = std::fs::read_to_string(source.join(file)).expect("the source is read");
        let end = text.find("#[cfg(test)]").unwrap_or(text.len());
        let (code, tests) = text.split_at(end);
        let count = code.matches(from).count();
        assert_eq!(count, 1, "{file}: {from:?} is there once");
        format!("{}{tests}", code.replace(from, to))
    }

    /// Copies a folder of sources into another, which is made anew, with the change.
    pub fn copy(&self, source: &Path, folder: &Path) {
        let _ = std::fs::remove_dir_all(folder);
        std::fs::create_dir_all(folder).expect("a folder is made");
        for entry in std::fs::read_dir(source).expect("the sources are read") {
            let path = entry.expect("a file is read").path();
            let copy = folder.join(path.file_name().unwrap_or_default());
            std::fs::copy(&path, copy).expect("the source is copied");
        }
        let file = folder.join(self.0);
        std::fs::write(file, self.changed_text(source)).expect("the change is written");
    }

    /// Compiles a crate of the copy.
    pub fn compile<A: AsRef<OsStr>>(&self, folder: &Path, arguments: &[A]) {
        let rustc = std::env::var_os("RUSTC").unwrap_or_else(|| OsString::from("rustc"));
        let options = ["--edition=2021", "--cap-lints=allow", "-Copt-level=1"];
        let status = Command::new(rustc)
            .current_dir(folder)
            .args(options)
            .args(arguments)
            .status();
        assert!(status.expect("the compiler runs").success(), "{self}");
    }
}
