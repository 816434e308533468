//! How many instructions an access takes, by callgrind: the program runs itself under valgrind, which counts inside one function and
//! what it calls.

use std::io::ErrorKind;
use std::path::Path;
use std::process::Command;

/// The argument for the program to make the accesses of a case once: the part, the case's place and a counted symbol come after it.
pub const ONCE: &str = "--once";

/// The instructions that all accesses of a case take together inside a function, or why they can't be counted.
pub fn count(program: &Path, part: &str, case: usize, symbol: &str) -> Result<u64, String> {
    let run = Command::new("valgrind")
        .args(["--tool=callgrind", "--callgrind-out-file=/dev/null"])
        .arg(format!("--toggle-collect={symbol}"))
        .arg(program)
        .args([ONCE, part, &case.to_string(), symbol])
        .output();
    let said = run.map_err(|error| match error.kind() {
        ErrorKind::NotFound => "valgrind is not in PATH".to_string(),
        _ => format!("valgrind can't be run: {error}"),
    })?;
    collected(&String::from_utf8_lossy(&said.stderr))
        .filter(|count| *count > 0)
        .ok_or_else(|| format!("callgrind counts nothing in {symbol}"))
}

/// The number in callgrind's line `Collected : N`.
fn collected(said: &str) -> Option<u64> {
    said.lines()
        .find_map(|line| line.split_once("Collected : ")?.1.trim().parse().ok())
}

#[cfg(test)]
mod tests {
    use super::collected;

    #[test]
    fn the_number_collected() {
        let said = "==7== For interactive control\n==7== \n==7== Collected : 1085438\n==7== \n";
        assert_eq!(collected(said), Some(1_085_438));
        assert_eq!(collected("==7== Collected : many\n"), None);
        assert_eq!(collected(""), None);
    }
}
