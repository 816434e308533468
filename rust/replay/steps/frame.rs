//! What `--step` shows of a translation as it stands: the tables of each stage as they are descended, with the entry just read and
//! the one that is next; which these are, and what is left; or how it ended.

use crate::entries::{self, counted, Entry};
use crate::explain::{ending, heading, refused_access};
use crate::paint::Tone;
use crate::registers::{mode_name, HGATP, SATP, VSATP};
use crate::stepper::Stepper;
use crate::walk::{self, Part, Stage, Step, Table, View, Walk};

/// A line in one colour.
#[derive(Clone)]
pub struct Line {
    pub tone: Tone,
    pub text: String,
}

impl Line {
    pub fn new(tone: Tone, text: impl Into<String>) -> Self {
        Line {
            tone,
            text: text.into(),
        }
    }

    pub fn plain(text: impl Into<String>) -> Self {
        Line::new(Tone::Plain, text)
    }
}

pub struct Frame {
    /// The access.
    pub heading: String,
    /// The stages that are on, from the second on beside the first where there is room.
    pub stages: Vec<Vec<Line>>,
    /// How it stands.
    pub status: Vec<Line>,
}

impl Frame {
    /// A translation as it stands, and whether its last entry was read just now.
    pub fn new(stepper: &Stepper, just_read: bool) -> Self {
        let Some((view, walk)) = stepper.walk() else {
            return Frame {
                heading: refused_access(stepper.access),
                stages: Vec::new(),
                status: ended(stepper),
            };
        };
        let read = entries::of(&walk);
        let last = read.into_iter().rfind(|entry| entry.step.read.is_some());
        let last = last.filter(|_| just_read);
        let picture = Picture {
            walk: &walk,
            shown: last.map(|entry| entry.step),
        };
        let mut status: Vec<Line> = last.and_then(|last| reading(stepper, last)).into_iter().collect();
        match entries::next(&walk) {
            Some(next) => status.extend(going(&view, next)),
            None => status.extend(ended(stepper)),
        }
        Frame {
            heading: heading(&view),
            stages: picture.stages(&view),
            status,
        }
    }
}

/// The entry just read.
fn reading(stepper: &Stepper, entry: Entry<'_>) -> Option<Line> {
    let count = stepper.place.reads().len();
    let words = entry.described()?;
    Some(Line::plain(format!("read {count}: {words}")))
}

/// The entry that is next, and what is left.
fn going(view: &View, next: Entry<'_>) -> [Line; 2] {
    [
        Line::new(Tone::Mark, format!("next: {}", next.title_with_purpose())),
        Line::plain(format!("left: {}", entries::left(view, next))),
    ]
}

/// How it ended and why. What ends otherwise than the translation does is not shown.
fn ended(stepper: &Stepper) -> Vec<Line> {
    let mut lines = Vec::new();
    if let Some(answer) = stepper.place.end() {
        let (tone, words) = ending(answer);
        lines.push(Line::new(tone, words));
    }
    let why = stepper.why();
    lines.extend(why.map(|why| Line::new(Tone::Bad, format!("why: {why}"))));
    let count = counted(stepper.place.reads().len() as u64);
    lines.push(Line::plain(format!(
        "the translation at once answers the same, with {count} read"
    )));
    lines
}

struct Picture<'a> {
    walk: &'a Walk,
    /// The entry just read.
    shown: Option<&'a Step>,
}

impl Picture<'_> {
    /// The stages that are on. Of second-stage walks it is the last.
    fn stages(&self, view: &View) -> Vec<Vec<Line>> {
        let first = view.first.map(|table| self.stage(table, self.walk.first.as_ref()));
        let second = view.second.map(|table| self.stage(table, self.last_second()));
        [first, second].into_iter().flatten().collect()
    }

    fn last_second(&self) -> Option<&Stage> {
        let guest_entries = self.walk.first.iter().flat_map(|first| &first.steps);
        let through = guest_entries.filter_map(|step| step.through.as_ref());
        self.walk.second.as_ref().or(through.last())
    }

    /// A stage: its name, the address that it translates, and its tables from the root down, each with the entry looked up in it.
    fn stage(&self, table: Table, stage: Option<&Stage>) -> Vec<Line> {
        let mut lines = vec![title(table)];
        let Some(stage) = stage else {
            lines.push(Line::plain("  not walked"));
            return lines;
        };
        lines.push(Line::plain(format!("  {}", translated(stage))));
        for (depth, step) in stage.steps.iter().enumerate() {
            lines.extend(self.step(stage.part, depth, step));
        }
        lines
    }

    /// A table, the entry looked up in it, and what that is if there is no table below it.
    fn step(&self, part: Part, depth: usize, step: &Step) -> Vec<Line> {
        let indent = "  ".repeat(depth);
        let guest = if part == Part::Vsatp { "guest " } else { "" };
        let (level, table) = (step.level, step.table);
        let mut lines = vec![Line::plain(format!(
            "  {indent}level {level:x}: {guest}table {table:x}"
        ))];
        let (mark, tone, found) = self.found(step);
        lines.push(Line::new(
            tone,
            format!("{mark} {indent}└ [{:x}] {:x}: {found}", step.index, step.address()),
        ));
        if let Some(read) = step.read {
            if !walk::is_pointer(read.value) || step.broken.is_some() {
                let leads = walk::leads(part, level, read.value);
                lines.push(Line::plain(format!("    {indent}{leads}")));
            }
        }
        let broken = step.broken;
        lines.extend(broken.map(|rule| Line::new(Tone::Bad, format!("    {indent}{rule}"))));
        lines
    }

    /// What an entry is: its mark, colour and flags, or why these are not known.
    fn found(&self, step: &Step) -> (char, Tone, String) {
        let going = self.walk.end.is_none();
        if let Some(read) = step.read {
            let flags = walk::flags(read.value);
            return match self.shown {
                Some(shown) if std::ptr::eq(shown, step) => ('*', Tone::Mark, flags),
                _ => (' ', Tone::Plain, flags),
            };
        }
        match (step.machine, going) {
            (Some(_), true) => ('>', Tone::Mark, "next".to_owned()),
            (Some(_), false) => (' ', Tone::Bad, "outside the image".to_owned()),
            (None, true) => (' ', Tone::Plain, "by the second stage".to_owned()),
            (None, false) => (' ', Tone::Bad, "not reached".to_owned()),
        }
    }
}

fn title(table: Table) -> Line {
    let (tone, stage, number, register) = match table.part {
        Part::Satp => (Tone::First, "first", SATP, "satp"),
        Part::Vsatp => (Tone::First, "first", VSATP, "vsatp"),
        Part::GuestEntry(_) | Part::Access => (Tone::Second, "second", HGATP, "hgatp"),
    };
    let mode = mode_name(number, table.levels());
    Line::new(tone, format!("  {stage} stage: {register}, {mode}"))
}

/// The address that a stage translates.
fn translated(stage: &Stage) -> String {
    let address = stage.address;
    match entries::purpose(stage.part) {
        None => format!("virtual {address:x}"),
        Some(purpose) => format!("guest physical {address:x}, {purpose}"),
    }
}
