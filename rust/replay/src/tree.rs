//! A walk as a picture: a stage's levels each below the entry that leads there, a guest entry's second stage below the entry.

use crate::paint::Paint;
use crate::walk::{self, Part, Stage, Step, Walk};

/// A line of the picture, and what hangs below it.
struct Node {
    text: String,
    below: Vec<Node>,
}

/// The lines of the picture.
pub fn drawn(paint: Paint, heading: String, walk: &Walk, ending: String) -> Vec<String> {
    let mut below: Vec<Node> = [&walk.first, &walk.second]
        .into_iter()
        .flatten()
        .map(|stage| stage_node(paint, stage))
        .collect();
    below.push(leaf(ending));
    let mut lines = vec![heading];
    draw(&below, "", &mut lines);
    lines
}

fn draw(nodes: &[Node], indent: &str, lines: &mut Vec<String>) {
    for (place, node) in nodes.iter().enumerate() {
        let last = place + 1 == nodes.len();
        let (branch, below) = if last {
            ("└─ ", "   ")
        } else {
            ("├─ ", "│  ")
        };
        lines.push(format!("{indent}{branch}{}", node.text));
        draw(&node.below, &format!("{indent}{below}"), lines);
    }
}

fn leaf(text: String) -> Node {
    Node {
        text,
        below: Vec::new(),
    }
}

fn stage_node(paint: Paint, stage: &Stage) -> Node {
    let address = stage.address;
    let text = match stage.part {
        Part::Satp => format!("{}: virtual {address:x}", paint.first("first stage, satp")),
        Part::Vsatp => format!("{}: virtual {address:x}", paint.first("first stage, vsatp")),
        Part::GuestEntry => format!(
            "{}: guest physical {address:x}, the guest entry",
            paint.second("second stage, hgatp")
        ),
        Part::Access => format!(
            "{}: guest physical {address:x}, the access",
            paint.second("second stage, hgatp")
        ),
    };
    Node {
        text,
        below: step_node(paint, stage, &stage.steps).into_iter().collect(),
    }
}

/// The first of the steps, the others below it.
fn step_node(paint: Paint, stage: &Stage, steps: &[Step]) -> Option<Node> {
    let (step, others) = steps.split_first()?;
    let guest = if stage.part == Part::Vsatp {
        "guest physical "
    } else {
        ""
    };
    let place = format!(
        "level {:x}: table {guest}{:x}, entry {:x} at {guest}{:x}",
        step.level,
        step.table,
        step.index,
        step.address()
    );
    let mut below = Vec::new();
    let text = match (&step.through, step.read) {
        (None, None) => format!("{place}: {}", paint.bad("outside the image")),
        (None, Some(read)) => format!("{place}: {}", found(paint, stage.part, step, read.value)),
        (Some(through), read) => {
            below.push(stage_node(paint, through));
            let found = read.map_or_else(
                || paint.bad("outside the image"),
                |read| found(paint, stage.part, step, read.value),
            );
            let machine = step.machine;
            below.extend(machine.map(|machine| leaf(format!("machine {machine:x}: {found}"))));
            place
        }
    };
    below.extend(step_node(paint, stage, others));
    Some(Node { text, below })
}

/// An entry: its flags, where it leads, and the rule that it breaks.
fn found(paint: Paint, part: Part, step: &Step, entry: u64) -> String {
    let words = format!(
        "{}, {}",
        walk::flags(entry),
        walk::leads(part, step.level, entry)
    );
    match step.broken {
        Some(rule) => format!("{words}; {}", paint.bad(rule)),
        None => words,
    }
}
