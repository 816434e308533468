//! The descriptions of the C face against each other. The exported functions of crates/exports and crates/exports_guest are the list
//! of its calls; the header, the declarations in Rust and the archive's symbols must be that list. The numbers that the header names
//! must be those of the crates' constants and of what the calls answer.

use super::*;
use std::collections::BTreeMap;
use std::fs;
use std::path::{Path, PathBuf};

/// The calls by name: parameters with their types, and what is returned, in Rust's words.
type Calls = BTreeMap<String, (Vec<(String, String)>, String)>;

/// The name that stands for a length: the list has none, and each side its own.
const LENGTH: &str = "length";

fn path(place: &str) -> PathBuf {
    Path::new(concat!(env!("CARGO_MANIFEST_DIR"), "/../..")).join(place)
}

fn text(place: impl AsRef<Path>) -> String {
    let place = place.as_ref();
    fs::read_to_string(place).unwrap_or_else(|error| panic!("{}: {error}", place.display()))
}

/// The files with an extension in a folder and those below it.
fn files(folder: PathBuf, extension: &str) -> Vec<PathBuf> {
    let entries = fs::read_dir(folder).expect("a folder of the repository");
    let paths = entries.map(|entry| entry.expect("an entry").path());
    let found = paths.flat_map(|path| match path.is_dir() {
        true => files(path, extension),
        false => vec![path],
    });
    found
        .filter(|path| path.extension().is_some_and(|is| is == extension))
        .collect()
}

/// Lines without what follows `//`.
fn code(text: &str) -> String {
    text.lines()
        .map(|line| line.split("//").next().unwrap_or("").to_owned() + "\n")
        .collect()
}

/// Cuts a declaration, `name(parameters) rest`, at its brackets.
fn cut(declaration: &str) -> (&str, &str, &str) {
    let (name, rest) = declaration.split_once('(').expect("parameters");
    let (parameters, rest) = rest.split_once(')').expect("the end of the parameters");
    (name.trim(), parameters, rest.trim())
}

/// The parameters between brackets, of a language that writes `name: type`.
fn named(parameters: &str) -> impl Iterator<Item = (&str, &str)> {
    let given = parameters
        .split(',')
        .map(str::trim)
        .filter(|one| !one.is_empty());
    given.map(|one| one.split_once(": ").expect("a name and a type"))
}

/// The type after an arrow.
fn returned(rest: &str) -> String {
    let after = rest.strip_prefix("->").expect("a call returns something");
    let kind = after.split([';', '{', '\n']).next().unwrap_or("");
    kind.trim().to_owned()
}

fn add(calls: &mut Calls, name: &str, parameters: Vec<(String, String)>, returns: String) {
    let before = calls.insert(name.to_owned(), (parameters, returns));
    assert!(before.is_none(), "{name} is declared twice");
}

/// The list: the exported functions, each slice as a pointer and a length.
fn exported() -> Calls {
    let mut calls = Calls::new();
    let crates = ["crates/exports/src", "crates/exports_guest/src"];
    for file in crates.into_iter().flat_map(|src| files(path(src), "rt")) {
        for function in code(&text(file)).split("pub extern \"C\" fn ").skip(1) {
            let (name, parameters, rest) = cut(function);
            let parameters = named(parameters).flat_map(lowered).collect();
            add(&mut calls, name, parameters, returned(rest));
        }
    }
    calls
}

/// A parameter of an exported function as C passes it, by the name that the face has for it.
fn lowered((name, kind): (&str, &str)) -> Vec<(String, String)> {
    let name = match name {
        "h" => "hart",
        "w" => "value",
        "value2" => "second",
        "signed" => "is_signed",
        same => same,
    };
    let pointer = match kind {
        "&[u64]" => "*const u64",
        "&mut [u64]" => "*mut u64",
        "&[u8]" => "*const u8",
        "&mut [u8]" => "*mut u8",
        number => return vec![(name.to_owned(), number.to_owned())],
    };
    let length = (LENGTH.to_owned(), "usize".to_owned());
    vec![(name.to_owned(), pointer.to_owned()), length]
}

/// A parameter's name, or that of all lengths.
fn name_of(name: &str, kind: &str) -> String {
    if kind == "usize" { LENGTH } else { name }.to_owned()
}

/// What a Rust file declares of C.
fn declared(file: &Path) -> Calls {
    let mut calls = Calls::new();
    let text = code(&text(file));
    let blocks = text.split("extern \"C\" {\n").skip(1);
    let blocks = blocks.filter_map(|block| block.split("\n}").next());
    for function in blocks.flat_map(|block| block.split("fn ").skip(1)) {
        let (name, parameters, rest) = cut(function);
        let parameters =
            named(parameters).map(|(name, kind)| (name_of(name, kind), kind.to_owned()));
        add(&mut calls, name, parameters.collect(), returned(rest));
    }
    calls
}

/// The header without its comments.
fn header() -> String {
    let text = text(path("include/balcumentri.h"));
    let after = |part| str::split_once(part, "*/").map_or(part, |(_, after)| after);
    text.split("/*").map(after).collect()
}

/// What the header declares.
fn prototypes() -> Calls {
    let mut calls = Calls::new();
    let header = header();
    let lines = header
        .lines()
        .filter(|line| !line.starts_with('#') && !["extern \"C\" {", "}"].contains(line));
    let lines: Vec<&str> = lines.collect();
    for prototype in lines
        .join(" ")
        .split_terminator(';')
        .filter(|one| !one.trim().is_empty())
    {
        let (front, parameters, rest) = cut(prototype);
        assert!(rest.is_empty(), "{front}: {rest}");
        let (name, returns) = c_words(front);
        let parameters = parameters
            .split(',')
            .map(c_words)
            .map(|(name, kind)| (name_of(&name, &kind), kind));
        add(&mut calls, &name, parameters.collect(), returns);
    }
    calls
}

/// The name and the type of `type name` in C.
fn c_words(declaration: &str) -> (String, String) {
    let declaration = declaration.trim();
    let start = declaration.rfind([' ', '*']).expect("a type and a name") + 1;
    let kind = match declaration[..start].trim() {
        "uint64_t" => "u64",
        "uint32_t" => "u32",
        "size_t" => "usize",
        "bool" => "bool",
        "const uint64_t *" => "*const u64",
        "const uint8_t *" => "*const u8",
        "uint64_t *" => "*mut u64",
        "uint8_t *" => "*mut u8",
        other => panic!("{declaration}: the list has no type {other}"),
    };
    (declaration[start..].to_owned(), kind.to_owned())
}

/// The names in the archive's index, which a linker looks up: after the magic and a head of sixty bytes stand their number, as
/// many offsets (big-endian words all), and the names, each ended by a zero byte.
fn symbols() -> Vec<String> {
    let archive = fs::read(path("target/staticlib/libexports.a")).expect("the library");
    let size = String::from_utf8_lossy(&archive[56..66])
        .trim()
        .parse::<usize>()
        .expect("a size");
    let index = &archive[68..68 + size];
    let count = u32::from_be_bytes(index[..4].try_into().expect("a word")) as usize;
    let names = index[4 + 4 * count..].split(|byte| *byte == 0).take(count);
    names
        .map(|name| String::from_utf8_lossy(name).into_owned())
        .collect()
}

/// Says of each call in which the two differ how each has it.
fn compare(side: &str, has: &Calls, list: &Calls) {
    for name in list.keys().chain(has.keys()) {
        assert_eq!(
            has.get(name),
            list.get(name),
            "{name}: {side} (left) and the exported function (right)"
        );
    }
}

#[test]
fn header_declares_the_exported_functions() {
    compare("the header", &prototypes(), &exported());
}

#[test]
fn rust_declares_the_exported_functions() {
    compare(
        "ffi.rs",
        &declared(&path("rust/balcumentri/src/ffi.rs")),
        &exported(),
    );
}

#[test]
fn other_declarations_are_of_exported_functions() {
    let list = exported();
    let packages = fs::read_dir(path("rust")).expect("the workspace");
    let sources = packages.map(|package| package.expect("an entry").path().join("src"));
    for file in sources
        .filter(|src| src.is_dir())
        .flat_map(|src| files(src, "rs"))
    {
        for (name, call) in declared(&file) {
            assert_eq!(Some(&call), list.get(&name), "{name}: {}", file.display());
        }
    }
}

#[test]
fn archive_has_the_exported_functions() {
    let mut symbols = symbols();
    symbols.sort();
    assert_eq!(symbols, exported().into_keys().collect::<Vec<_>>());
}

/// The constants of a file that are numbers of things, as they are written.
fn constants(file: &str) -> BTreeMap<String, String> {
    let text = code(&text(path(file)));
    let statements = text
        .split(';')
        .filter_map(|statement| statement.split_once("const "));
    let constants = statements.filter_map(|(_, constant)| constant.split_once(": usize = "));
    constants
        .map(|(name, value)| (name.to_owned(), value.to_owned()))
        .collect()
}

/// The value of sums of products of numbers and constants.
fn value(expression: &str, constants: &BTreeMap<String, String>) -> u64 {
    let factor = |one: &str| {
        let name = one.trim().rsplit("::").next().unwrap_or("");
        name.parse()
            .unwrap_or_else(|_| value(&constants[name], constants))
    };
    let product = |term: &str| term.split('*').map(factor).product::<u64>();
    expression.split('+').map(product).sum()
}

/// The crates' numbers of words, places and registers. A file's own constants come before those of another with the same name.
fn sizes() -> impl Fn(&str) -> u64 {
    let files = [
        "registers/src/places.rt",
        "stages/src/lib.rt",
        "layout/src/lib.rt",
        "listing/src/lib.rt",
        "layout/src/guest.rt",
    ];
    let mut all = BTreeMap::new();
    for file in files {
        let own = constants(&format!("crates/{file}"));
        all.extend(own.clone());
        for name in own.into_keys() {
            let number = value(&name, &all).to_string();
            all.insert(name, number);
        }
    }
    move |name| value(name, &all)
}

#[test]
fn sizes_are_those_of_the_crates() {
    let size = sizes();
    let here = [
        ("KEPT", KEPT),
        ("HART", HART),
        ("STEP", STEP),
        ("ACCESS", ACCESS),
        ("PLACES", PLACES),
        ("TRANSLATION", TRANSLATION_WORDS),
        ("PERFORMED", GUEST),
    ];
    for (name, words) in here {
        assert_eq!(words as u64, size(name), "{name}");
    }
    let bench = constants("rust/bench/src/call.rs");
    let timed = ["HART_WORDS", "TRANSLATION_WORDS"].map(|name| value(name, &bench));
    assert_eq!(timed, ["HART", "TRANSLATION"].map(&size));
}

/// What the header defines as numbers, without the names' common beginning.
fn defined() -> BTreeMap<String, u64> {
    let header = header();
    let defines = header
        .lines()
        .filter_map(|line| line.strip_prefix("#define BALCUMENTRI_"));
    let defines = defines.filter_map(|define| define.split_once(' '));
    defines
        .map(|(name, value)| (name.to_owned(), value.trim().parse().expect("a number")))
        .collect()
}

const OUTSIDE: u64 = 0x1000;

/// What a translation in M over an image of a page returns, and its first two words.
fn translated(kind: u64, address: u64, width: u64) -> (u64, u64, u64) {
    let (hart, bytes, mut out) = (
        reset(0, 3, 0),
        [0; OUTSIDE as usize],
        [0; TRANSLATION_WORDS],
    );
    // SAFETY: all three are lent for the call, each with its own length, and do not overlap.
    let code = unsafe {
        balcumentri_translate(
            hart.as_ptr(),
            hart.len(),
            0,
            bytes.as_ptr(),
            bytes.len(),
            kind,
            address,
            width,
            out.as_mut_ptr(),
            out.len(),
        )
    };
    (code, out[0], out[1])
}

/// The code of a call whose result has room for so many words.
fn code_with_room<const N: usize>() -> u64 {
    let (hart, mut out) = (reset(0, 3, 0), [0; N]);
    // SAFETY: as above.
    unsafe { balcumentri_ecall(hart.as_ptr(), hart.len(), out.as_mut_ptr(), out.len()) }
}

/// What a hart in U with a machine timer interrupt, pending and enabled, comes to.
fn interrupted() -> StepWords {
    let mut hart = reset(0, 0, 0);
    for register in [0x304, 0x344] {
        hart[3 + place(register)] = 1 << 7;
    }
    interrupt(&hart)
}

/// The kind of access whose access fault has the cause.
fn kind_with(cause: u64) -> u64 {
    let faults = |kind: &u64| translated(*kind, OUTSIDE, 4).2 == cause;
    (0..3).find(faults).expect("a kind")
}

#[test]
fn header_defines_what_the_calls_answer() {
    let size = sizes();
    let came_to = |step: StepWords| step[HART];
    let refused = came_to(ecall(&reset(7, 3, 0)));
    assert_eq!(
        refused,
        translated(0, 0, 3).1,
        "both have one word for a refusal"
    );
    let expected = [
        ("WRITTEN", code_with_room::<STEP>()),
        ("WRONG_LENGTH", code_with_room::<HART>()),
        ("WRONG_KIND", translated(3, 0, 4).0),
        ("HART_WORDS", size("HART")),
        ("STEP_WORDS", size("STEP")),
        ("ACCESS_WORDS", size("ACCESS")),
        ("TRANSLATION_WORDS", size("TRANSLATION")),
        ("GUEST_WORDS", size("PERFORMED")),
        ("PLACES", size("PLACES")),
        ("DONE", came_to(wfi(&reset(0, 3, 0), 0))),
        ("TRAPPED", came_to(ecall(&reset(0, 3, 0)))),
        ("ADDRESS", translated(0, 0, 4).1),
        ("FAULT", translated(0, OUTSIDE, 4).1),
        ("REFUSED", refused),
        ("INTERRUPTED", came_to(interrupted())),
        ("FETCH", kind_with(1)),
        ("LOAD", kind_with(5)),
        ("STORE", kind_with(7)),
        ("NO_PLACE", place(0x100) as u64),
        ("NO_NUMBER", number(KEPT)),
    ];
    assert_eq!(
        defined(),
        expected
            .map(|(name, value)| (name.to_owned(), value))
            .into()
    );
    assert_eq!(WRITTEN, defined()["WRITTEN"]);
}

#[test]
#[should_panic(expected = "the linked library is not the one declared here")]
fn a_call_that_writes_nothing_gives_no_result() {
    let _: HartWords = plain(balcumentri_ecall, &reset(0, 3, 0));
}

#[test]
#[should_panic(expected = "the linked library is not the one declared here")]
fn a_translation_that_is_not_written_gives_no_answer() {
    let image = Image {
        base: 0,
        bytes: &[],
    };
    translate_into(
        &reset(0, 3, 0),
        image,
        3,
        0,
        4,
        &mut TranslationWords::default(),
    );
}
