//! Lines laid out in a window of so many columns and rows.

use crate::frame::{Frame, Line};
use crate::paint::{Paint, Tone};

/// The columns from which on two stages stand side by side.
const WIDE: usize = 80;

/// Between them.
const BETWEEN: &str = " │ ";

/// A row of the window, and whether it has a marked entry.
struct Row {
    text: String,
    marked: bool,
}

/// A window: what it is painted with, and its size.
#[derive(Clone, Copy)]
pub struct Window {
    pub paint: Paint,
    pub columns: usize,
    pub rows: usize,
}

impl Window {
    /// A translation below its title, and the keys in the last row: as many rows as there are, none wider than the window. Where there
    /// is no room for all, the stages are cut down to what is around the marked entries.
    pub fn framed(self, title: &str, frame: &Frame, keys: &str) -> Vec<String> {
        let title = Line::plain(title);
        let heading = Line::plain(frame.heading.as_str());
        let top = self.stacked([&title, &heading]);
        let status = self.stacked(&frame.status);
        let keys = self.stacked([&Line::plain(keys)]);
        let room = self.rows.saturating_sub(top.len() + status.len() + keys.len());
        let stages = cut(self.stages(&frame.stages), room);
        let gaps = if room >= stages.len() + 2 { 1 } else { 0 };
        let above = [top, gap(gaps), stages, gap(gaps), status].into_iter();
        self.filled(above.flatten().collect(), keys)
    }

    /// The first of these lines, as many as there is room for, and the keys in the last row; how many lines that are.
    pub fn paged(self, lines: &[Line], keys: &str) -> (Vec<String>, usize) {
        let keys = self.stacked([&Line::plain(keys)]);
        let room = self.rows.saturating_sub(keys.len());
        let (mut page, mut count) = (Vec::new(), 0);
        for line in lines {
            let more = self.stacked([line]);
            if count > 0 && page.len() + more.len() > room {
                break;
            }
            page.extend(more);
            count += 1;
        }
        page.truncate(room);
        (self.filled(page, keys), count)
    }

    /// Rows with others at the foot of the window; where there are too many, the first are left out.
    fn filled(self, mut rows: Vec<Row>, foot: Vec<Row>) -> Vec<String> {
        let fill = self.rows.saturating_sub(rows.len() + foot.len());
        rows.extend(gap(fill));
        rows.extend(foot);
        let over = rows.len().saturating_sub(self.rows);
        rows.into_iter().skip(over).map(|row| row.text).collect()
    }

    /// Two stages side by side where the window is wide, else one below the other.
    fn stages(self, stages: &[Vec<Line>]) -> Vec<Row> {
        match stages {
            [one, other] if self.columns >= WIDE => self.beside(one, other),
            _ => {
                let mut rows = Vec::new();
                for (place, stage) in stages.iter().enumerate() {
                    rows.extend(gap(place.min(1)));
                    rows.extend(self.stacked(stage));
                }
                rows
            }
        }
    }

    fn beside(self, one: &[Line], other: &[Line]) -> Vec<Row> {
        let width = (self.columns - BETWEEN.chars().count()) / 2;
        let [one, other] = [one, other].map(|lines| {
            let folded = lines.iter().flat_map(|line| folded(line, width));
            folded.collect::<Vec<Line>>()
        });
        let cell = |lines: &[Line], place: usize| {
            let line = lines.get(place).cloned();
            line.unwrap_or_else(|| Line::plain(""))
        };
        let rows = 0..one.len().max(other.len());
        rows.map(|place| {
            let (mut left, right) = (cell(&one, place), cell(&other, place));
            left.text += &" ".repeat(width - left.text.chars().count());
            let (left, right) = (self.row(&left), self.row(&right));
            Row {
                text: format!("{}{BETWEEN}{}", left.text, right.text),
                marked: left.marked || right.marked,
            }
        })
        .collect()
    }

    /// Lines one below the other.
    fn stacked<'a>(self, lines: impl IntoIterator<Item = &'a Line>) -> Vec<Row> {
        let folded = lines.into_iter().flat_map(|line| folded(line, self.columns));
        folded.map(|line| self.row(&line)).collect()
    }

    fn row(self, line: &Line) -> Row {
        Row {
            text: self.paint.toned(line.tone, &line.text),
            marked: line.tone == Tone::Mark,
        }
    }
}

/// So many empty rows.
fn gap(rows: usize) -> Vec<Row> {
    let empty = || Row {
        text: String::new(),
        marked: false,
    };
    std::iter::repeat_with(empty).take(rows).collect()
}

/// At most so many of the rows: up to the last that is marked, or the last ones.
fn cut(mut rows: Vec<Row>, room: usize) -> Vec<Row> {
    let marked = rows.iter().rposition(|row| row.marked);
    let end = marked.map_or(rows.len(), |last| (last + 1).max(room));
    rows.truncate(end);
    rows.drain(..rows.len().saturating_sub(room));
    rows
}

/// A line in pieces of at most this width, broken at blanks where it can be; those behind the first stand under its first word.
fn folded(line: &Line, width: usize) -> Vec<Line> {
    let characters: Vec<char> = line.text.chars().collect();
    let is_indent = |character: &&char| " *>└".contains(**character);
    let indent = characters.iter().take_while(is_indent).count();
    let indent = if 2 * indent > width { 0 } else { indent };
    let mut pieces = Vec::new();
    let mut rest = &characters[..];
    let mut before = String::new();
    while before.chars().count() + rest.len() > width {
        let room = width.saturating_sub(before.chars().count()).max(1);
        let least = if before.is_empty() { indent } else { 0 };
        let blank = rest[..=room.min(rest.len() - 1)].iter().rposition(|c| *c == ' ');
        let end = blank.filter(|blank| *blank > least).unwrap_or(room);
        pieces.push(before + &String::from_iter(&rest[..end]));
        let behind = &rest[end..];
        let blanks = behind.iter().take_while(|c| **c == ' ').count();
        rest = &behind[blanks..];
        before = " ".repeat(indent);
    }
    pieces.push(before + &String::from_iter(rest));
    let piece = |text| Line::new(line.tone, text);
    pieces.into_iter().map(piece).collect()
}
