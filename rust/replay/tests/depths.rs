//! What `--explain` says of tables of three, four and five levels: the modes by name, the rules about an address's high bits, leaves of
//! every size, and the picture of the deepest walk.

mod common;

use common::written;

/// The explanations of a script.
fn lines(script: &str) -> Vec<String> {
    let text = written("--explain", script);
    let lines = text.lines().filter_map(|line| line.strip_prefix("# "));
    lines.map(str::to_owned).collect()
}

/// The last of them.
fn last(script: &str) -> String {
    lines(script).pop().expect("something is said")
}

/// MODE, the bits of a virtual address, and the level of the root.
const DEPTHS: [(&str, u32, u64); 3] = [("8", 39, 2), ("9", 48, 3), ("a", 57, 4)];

#[test]
fn each_mode_by_its_name() {
    for (number, name, suffix) in [
        ("180", "satp", ""),
        ("280", "vsatp", ""),
        ("680", "hgatp", "x4"),
    ] {
        for (mode, bits, _) in DEPTHS {
            let said = lines(&format!("reg {number} {mode}000000000000004\nshow\n"));
            let content = format!(
                "{name} ({number}) {mode}000000000000004: MODE {mode} (Sv{bits}{suffix}), "
            );
            assert!(
                said.iter().any(|line| line.starts_with(&content)),
                "{content}: {said:?}"
            );
        }
    }
}

#[test]
fn a_write_says_from_which_mode_to_which() {
    let said = |lines: Vec<String>| lines[2].clone();
    for (script, change) in [
        (
            "reg 180 8000000000000000\nwrite 180 9000000000000000 0\n",
            "satp (180) 8000000000000000 becomes 9000000000000000: MODE 8 (Sv39) to 9 (Sv48)",
        ),
        (
            "reg 280 9000000000000000\nset 280 2000000000000000 1 0\n",
            "the write is ignored: MODE is b, it may hold 0, 8, 9 or a; vsatp (280) stays 9000000000000000",
        ),
        (
            "reg 680 a000000000000000\nclear 680 2000000000000000 1 0\n",
            "hgatp (680) a000000000000000 becomes 8000000000000000: MODE a (Sv57x4) to 8 (Sv39x4)",
        ),
    ] {
        assert_eq!(said(lines(script)), change);
    }
    let kept = lines("reg 680 a000000000000000\nwrite 680 b000000000000000 0\n");
    assert_eq!(
        kept[2..4],
        [
            "hgatp (680) stays a000000000000000",
            "MODE b is not stored, it may hold 0, 8, 9 or a: it keeps a (Sv57x4)",
        ]
    );
}

#[test]
fn a_hart_with_another_mode_is_refused() {
    for register in ["satp (180)", "vsatp (280)", "hgatp (680)"] {
        let number = &register[register.len() - 4..register.len() - 1];
        for mode in ["1", "7", "b", "f"] {
            let script = format!("reg {number} {mode}000000000000000\nload 0 8\n");
            assert!(written("--explain", &script).starts_with("refused 2\n"));
            let why = format!("why: {register}: MODE is {mode}; it may hold 0, 8, 9 or a");
            assert_eq!(last(&script), why);
        }
    }
}

/// The addresses at the edges of a first stage's: those just inside are walked, those just outside are not.
#[test]
fn a_first_stage_by_its_own_modes_bits() {
    for (mode, bits, root) in DEPTHS {
        let scene = format!(
            "image 0 1000\nhart 0 1 0\nreg 180 {mode}000000000000000\nhart 1 1 0\nreg 280 {mode}000000000000000\n"
        );
        let half = 1_u64 << (bits - 1);
        for (address, is_well) in [
            (half - 8, true),
            (half, false),
            (half.wrapping_neg() - 8, false),
            (half.wrapping_neg(), true),
        ] {
            let rule = if is_well {
                format!(", level {root:x}: V is 0")
            } else {
                let sign = bits - 1;
                format!(": bits 63:{bits} of {address:x} are not all equal to bit {sign}")
            };
            assert_eq!(
                last(&format!("{scene}load {address:x} 8\n")),
                format!("why: first stage (vsatp){rule}")
            );
            let own = scene.split("hart 1 1 0\n").next().unwrap_or_default();
            assert_eq!(
                last(&format!("{own}fetch {address:x} 4\n")),
                format!("why: first stage (satp){rule}")
            );
        }
    }
}

/// The same of a second stage, for the access and for a guest entry.
#[test]
fn a_second_stage_by_its_own_modes_bits() {
    for (mode, bits, root) in DEPTHS {
        let end = 1_u64 << (bits + 2);
        let scene = format!("image 0 4000\nhart 1 1 0\nreg 680 {mode}000000000000000\n");
        for (address, rule) in [
            (end - 8, format!(", level {root:x}: V is 0")),
            (
                end,
                format!(": bits 63:{} of {end:x} are not all 0", bits + 2),
            ),
        ] {
            assert_eq!(
                last(&format!("{scene}load {address:x} 8\n")),
                format!("why: second stage for the access at {address:x}{rule}")
            );
        }
        // a root of the guest at the first address that is none, where PPN has the bits
        let Some(ppn) = Some(end >> 12).filter(|ppn| *ppn < 1 << 44) else {
            continue;
        };
        let guest = format!("{scene}reg 280 {:x}\nload 0 8\n", 9 << 60 | ppn);
        let wide = bits + 2;
        assert_eq!(
            last(&guest),
            format!("why: second stage for the guest entry at {end:x}: bits 63:{wide} of {end:x} are not all 0")
        );
    }
}

#[test]
fn leaves_of_every_size() {
    let sizes = ["4 KiB", "2 MiB", "1 GiB", "512 GiB", "256 TiB"];
    for (level, size) in sizes.into_iter().enumerate() {
        // pointers to the root again, at index 0 of each level, down to the leaf at index 1
        let at = 1_u64 << (12 + 9 * level);
        let entries = "image 0 4000\nput 0 1\n";
        let first = format!("{entries}put 8 cf\nhart 0 1 0\nreg 180 a000000000000000\n");
        let second = format!("{entries}put 8 df\nhart 1 1 0\nreg 680 a000000000000000\n");
        for (stage, scene, flags) in [
            ("first", &first, "VRWX--AD"),
            ("second", &second, "VRWXU-AD"),
        ] {
            let said = lines(&format!("{scene}load {:x} 8\n", at | 0x40));
            let entry = format!(
                "{stage} stage, level {level}, entry at 8: {flags}, a leaf: the {size} page at 0"
            );
            assert_eq!(said[said.len() - 2], entry);
            assert_eq!(said[said.len() - 1], "it reaches machine address 40");
            if level > 0 {
                let said = lines(&format!("{scene}put 8 4df\nload {at:x} 8\n"));
                let entry = format!(" a leaf, but no {size} page begins at 1000");
                assert!(said[said.len() - 3].ends_with(&entry), "{said:?}");
                let rule = format!(", level {level}: a large leaf whose low PPN is not 0");
                assert!(said[said.len() - 1].ends_with(&rule), "{said:?}");
            }
        }
    }
}

/// The second stage's root has eleven bits of index at any depth, every other table nine.
#[test]
fn the_index_of_each_table() {
    for (mode, bits, root) in DEPTHS {
        let scene = format!(
            "image 0 4000\nput ff8 1\nput 3ff8 1\nhart 1 1 0\nreg 680 {mode}000000000000000\n"
        );
        let drawn = written(
            "--explain=tree",
            &format!("{scene}load {:x} 8\n", (1_u64 << (bits + 2)) - 8),
        );
        let place = |level: u64, entry: &str| {
            format!("level {level}: table 0, entry {entry}: V-------, a pointer")
        };
        assert!(drawn.contains(&place(root, "7ff at 3ff8")), "{drawn}");
        for level in 0..root {
            assert!(drawn.contains(&place(level, "1ff at ff8")), "{drawn}");
        }
    }
}

/// Both stages in one page: entry 0 is the second stage's pointer to the page, entry 2 its leaf for the guest page 2000; entry 3 is the
/// first stage's pointer to that page, and entry 4 its leaf.
fn one_page(first: &str, second: &str) -> String {
    format!(
        "image 80000000 1000\nput 80000000 20000001\nput 80000010 200000df\nput 80000018 801\nput 80000020 8cf\n\
         hart 1 1 0\nreg 280 {first}000000000000002\nreg 680 {second}000000000080000\n"
    )
}

/// The virtual address with index 3 at each level, and 4 at the last.
fn deepest(root: u64) -> u64 {
    (1..=root).map(|level| 3 << (12 + 9 * level)).sum::<u64>() | 0x4010
}

#[test]
fn every_pair_of_depths_is_followed_to_its_end() {
    for (first, _, top) in DEPTHS {
        for (second, _, under) in DEPTHS {
            let scene = one_page(first, second);
            let script = format!("{scene}load {:x} 8\n", deepest(top));
            let said = lines(&script);
            let (n, m) = (top as usize + 1, under as usize + 1);
            let entries = said.iter().filter(|line| line.contains(" entry at "));
            // the heading of a walk for a guest entry names it, too
            let guests = said
                .iter()
                .filter(|line| line.contains(" the guest entry at "));
            assert_eq!(entries.count() - guests.count(), (n + 1) * (m + 1) - 1);
            assert_eq!(last(&script), "it reaches machine address 80000010");
        }
    }
}

#[test]
fn the_picture_of_thirty_five_reads() {
    let script = format!("{}load {:x} 8\n", one_page("a", "a"), deepest(4));
    let drawn = written("--explain=tree", &script);
    assert_eq!(
        drawn
            .lines()
            .filter(|line| line.starts_with("read "))
            .count(),
        35
    );
    let picture = drawn.split_once("# load of ").expect("a picture").1;
    assert_eq!(picture, thirty_five());
}

/// A second stage's five levels, each further in.
fn second_levels(indent: &str) -> String {
    let mut picture = String::new();
    for level in (0..5).rev() {
        let gap = "   ".repeat(4 - level);
        let entry = match level {
            0 => "entry 2 at 80000010: VRWXU-AD, a leaf: the 4 KiB page at 80000000",
            _ => "entry 0 at 80000000: V-------, a pointer to the table at 80000000",
        };
        picture += &format!("{indent}{gap}└─ level {level}: table 80000000, {entry}\n");
    }
    picture
}

/// The picture, from the access's width on.
fn thirty_five() -> String {
    let mut picture = "8 bytes at 30180c0604010 as VS; both stages are on\n".to_owned();
    picture += "# ├─ first stage, vsatp: virtual 30180c0604010\n";
    for level in (0..5).rev() {
        let indent = format!("# │  {}", "   ".repeat(4 - level));
        let (entry, at, branch, found) = match level {
            0 => (4, "20", "└─", "VRWX--AD, a leaf: the 4 KiB page"),
            _ => (3, "18", "├─", "V-------, a pointer to the table"),
        };
        picture += &format!("{indent}└─ level {level}: table guest physical 2000, entry {entry} at guest physical 20{at}\n");
        picture +=
            &format!("{indent}   ├─ second stage, hgatp: guest physical 20{at}, the guest entry\n");
        picture += &second_levels(&format!("{indent}   │  "));
        picture +=
            &format!("{indent}   {branch} machine 800000{at}: {found} at guest physical 2000\n");
    }
    picture += "# ├─ second stage, hgatp: guest physical 2010, the access\n";
    picture += &second_levels("# │  ");
    picture + "# └─ it reaches machine address 80000010\n"
}
