//! The program: its tables, its arguments, and the instructions that callgrind counts.

use bench::instructions::count;
use bench::timing::Timed;
use bench::{cases, registers};
use std::path::Path;
use std::process::{Command, Output};

const BENCH: &str = env!("CARGO_BIN_EXE_bench");

fn bench(arguments: &[&str]) -> Output {
    let mut command = Command::new(BENCH);
    // no valgrind is found there
    command.args(arguments).env("PATH", "").output().unwrap()
}

/// The part's table in a text: its head and its lines have at most 140 columns, and each line has the cells meant.
fn table_of<C: Timed>(text: &str) {
    assert!(C::HEAD.lines().all(|line| line.len() <= 140));
    let (_, table) = text.split_once(C::HEAD).unwrap();
    for (case, row) in C::all().iter().zip(table.lines().skip(1)) {
        let cells = row.strip_prefix(&case.columns()).expect(row);
        let cells: Vec<&str> = cells.split_whitespace().collect();
        let [numbers @ .., "-", "-"] = cells.as_slice() else {
            panic!("{row}");
        };
        let numbers: Vec<f64> = numbers.iter().map(|cell| cell.parse().unwrap()).collect();
        let (times, ratios) = numbers.split_at(2 * C::SIDES.len());
        assert_eq!(ratios.len(), times.len() - 2);
        // a machine that halts may make one of them longer
        let usual = times.iter().all(|ns| *ns < 999.0) && ratios.iter().all(|ratio| *ratio < 99.0);
        assert!(row.len() <= 140 || !usual, "{row}");
    }
}

#[test]
fn a_table_of_each_part() {
    let run = bench(&["3"]);
    let text = String::from_utf8(run.stdout).unwrap();
    assert!(run.status.success() && run.stderr.is_empty());
    table_of::<cases::Case>(&text);
    table_of::<registers::cases::Case>(&text);
    assert_eq!(text.matches("valgrind is not in PATH").count(), 2, "{text}");
}

#[test]
fn one_part_alone() {
    let run = bench(&["registers", "1"]);
    let text = String::from_utf8(run.stdout).unwrap();
    assert!(run.status.success() && run.stderr.is_empty());
    table_of::<registers::cases::Case>(&text);
    assert!(!text.contains(cases::Case::HEAD));
}

#[test]
fn other_arguments_give_the_usage() {
    for arguments in [
        vec!["0"],
        vec!["-1"],
        vec!["many"],
        vec!["1", "2"],
        vec!["other"],
        vec!["registers", "0"],
        vec!["registers", "translations"],
        vec!["1", "registers"],
        vec!["--once"],
        vec!["--once", "other", "0", "plain_translate"],
        vec!["--once", "translations", "16", "plain_translate"],
        vec!["--once", "translations", "0", "other"],
        vec!["--once", "registers", "13", "plain_read"],
        vec!["--once", "registers", "0", "plain_write"],
    ] {
        let run = bench(&arguments);
        assert_eq!(run.status.code(), Some(2), "{arguments:?}");
        assert_eq!(
            run.stderr,
            b"usage: bench [translations|registers] [ROUNDS]\n"
        );
        assert!(run.stdout.is_empty());
    }
}

#[test]
fn callgrind_counts_where_there_is_one() {
    if Command::new("valgrind").arg("--version").output().is_err() {
        return;
    }
    let all = |part, case, symbol| count(Path::new(BENCH), part, case, symbol);
    // without a read, with fifteen, and with thirty-five
    for symbol in cases::case(0).unwrap().symbols() {
        let [none, fifteen, most] =
            [0, 5, 15].map(|case| all("translations", case, symbol).unwrap());
        assert!(
            none > 0 && fifteen > none && most > fifteen,
            "{symbol}: {none} {fifteen} {most}"
        );
    }
    assert!(all("translations", 0, "other").is_err());
    // each form
    let mut symbols = Vec::new();
    for (place, case) in registers::cases::cases().iter().enumerate() {
        for symbol in case.symbols() {
            if !symbols.contains(&symbol) {
                let least = 50 * case.accesses() as u64;
                assert!(all("registers", place, symbol).unwrap() > least, "{symbol}");
                symbols.push(symbol);
            }
        }
    }
    assert_eq!(symbols.len(), 8);
}
