//! The entries of a walk in the order in which they are read, each in words, and what is left of a walk that goes on.

use crate::walk::{self, Part, Stage, Step, Table, View, Walk};

/// An entry, and the stage that it is of.
#[derive(Clone, Copy)]
pub struct Entry<'a> {
    pub stage: &'a Stage,
    pub step: &'a Step,
}

/// Those that were read; then the one that is next or lies outside the image, where there is one.
pub fn of(walk: &Walk) -> Vec<Entry<'_>> {
    let mut entries = Vec::new();
    for stage in [&walk.first, &walk.second].into_iter().flatten() {
        add(stage, &mut entries);
    }
    entries
}

fn add<'a>(stage: &'a Stage, entries: &mut Vec<Entry<'a>>) {
    for step in &stage.steps {
        if let Some(through) = &step.through {
            add(through, entries);
        }
        if step.machine.is_some() {
            entries.push(Entry { stage, step });
        }
    }
}

/// The entry that is next, of a walk that goes on.
pub fn next(walk: &Walk) -> Option<Entry<'_>> {
    of(walk).pop().filter(|_| walk.end.is_none())
}

impl Entry<'_> {
    /// Its stage, level and address.
    pub fn title(&self) -> String {
        let Entry { stage, step } = self;
        let name = if stage.part.is_first() {
            "first"
        } else {
            "second"
        };
        let guest = match stage.part {
            Part::Vsatp => format!(" (guest physical {:x})", step.address()),
            _ => String::new(),
        };
        let machine = step.machine.unwrap_or_default();
        format!(
            "{name} stage, level {:x}, entry at {machine:x}{guest}",
            step.level
        )
    }

    /// The same, with what the second stage is walked for.
    pub fn title_with_purpose(&self) -> String {
        match purpose(self.stage.part) {
            Some(purpose) => format!("{}, for {purpose}", self.title()),
            None => self.title(),
        }
    }

    /// What was read: its flags, and where it leads.
    pub fn described(&self) -> Option<String> {
        let entry = self.step.read?.value;
        let (flags, leads) = (
            walk::flags(entry),
            walk::leads(self.stage.part, self.step.level, entry),
        );
        Some(format!("{}: {flags}, {leads}", self.title()))
    }
}

/// What a second stage is walked for.
pub fn purpose(part: Part) -> Option<String> {
    match part {
        Part::Satp | Part::Vsatp => None,
        Part::GuestEntry(level) => Some(format!("the guest entry at level {level:x}")),
        Part::Access => Some("the access".to_owned()),
    }
}

/// A second-stage walk by the address that it is for.
pub fn second_stage(stage: &Stage) -> Option<String> {
    let (address, purpose) = (stage.address, purpose(stage.part)?);
    Some(format!(
        "second stage for guest physical {address:x}, {purpose}:"
    ))
}

/// What is left from the next entry on: the levels of each stage, and at most how many entries.
pub fn left(view: &View, next: Entry<'_>) -> String {
    let second = view.second.map_or(0, Table::levels);
    let level = next.step.level;
    let mut parts = match next.stage.part {
        Part::GuestEntry(guest) => vec![to_go("first", guest), to_go("second", level)],
        Part::Access => vec![to_go("second", level)],
        Part::Satp | Part::Vsatp => vec![to_go("first", level)],
    };
    if next.stage.part == Part::Vsatp && second > 0 {
        parts.push(format!("{} for what follows", to_go("second", second - 1)));
    }
    format!(
        "{}; at most {}",
        parts.join("; "),
        counted(most(view, next))
    )
}

/// The levels of a stage from this one down.
fn to_go(stage: &str, level: u64) -> String {
    match level {
        0 => format!("{stage} stage, level 0"),
        _ => format!("{stage} stage, levels {level:x} to 0"),
    }
}

/// At most how many entries are still read, the next one included.
pub fn most(view: &View, next: Entry<'_>) -> u64 {
    let second = view.second.map_or(0, Table::levels);
    let level = next.step.level;
    // an entry of the first stage, those below it, each behind a second stage, and the second stage for the access
    let from_first = |level| 1 + level * (second + 1) + second;
    match next.stage.part {
        Part::Satp | Part::Vsatp => from_first(level),
        Part::GuestEntry(guest) => level + 1 + from_first(guest),
        Part::Access => level + 1,
    }
}

/// So many entries.
pub fn counted(entries: u64) -> String {
    match entries {
        0 => "no entry".to_owned(),
        1 => "1 entry".to_owned(),
        _ => format!("{entries} entries"),
    }
}
