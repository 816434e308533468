//! A translation that is taken one read at a time, in words: what a start and a press came to.

use crate::entries::{self, counted};
use crate::explain::{heading, refused_access, Explainer, Style};
use crate::happened::{refusal, Came, Explanation, Happened};
use crate::reason;
use crate::stand_in::{Press, Pressed};
use crate::stepper::Stepper;
use crate::tree::Drawing;
use crate::walk::{View, Walk};

impl Explainer {
    /// A start or a press.
    pub fn stepping(&self, happened: &Happened<'_>) -> Explanation {
        match (happened.came, happened.stepper) {
            (Came::Started(_), Some(stepper)) => self.started(stepper),
            (Came::Pressed(press), Some(stepper)) => self.pressed(happened, stepper, press),
            _ => Explanation::default(),
        }
    }

    /// A start: the access, and which entry is next or how it ended at once.
    fn started(&self, stepper: &Stepper) -> Explanation {
        let status = match stepper.place.end() {
            None => next(stepper),
            Some(answer) => format!("finished at once: {}", self.ending(answer)),
        };
        self.stepped(stepper, false, status)
    }

    /// A press: the entry that it showed, and which is next or how it ended.
    fn pressed(
        &self,
        happened: &Happened<'_>,
        stepper: &Stepper,
        press: &Press,
    ) -> Explanation {
        let shown = counted(stepper.place.reads().len() as u64);
        let status = match stepper.place.end() {
            None => format!("{shown} shown; {}", next(stepper)),
            Some(answer) if press.shown.is_some() => {
                format!("{shown} shown; {}", self.ending(answer))
            }
            Some(answer) => format!("ended before, with {shown} shown: {}", self.ending(answer)),
        };
        if let Pressed::Refused(number) = press.answer {
            return Explanation {
                lines: vec![
                    self.paint.bad(&refusal(number)),
                    format!("the place stays as it was: {status}"),
                ],
                why: reason::press_refused(number, happened.image, stepper.extent),
            };
        }
        self.stepped(stepper, press.shown.is_some(), status)
    }

    /// The access, the last entry if it was shown just now, or the picture of the walk so far, and how it stands.
    fn stepped(&self, stepper: &Stepper, shown: bool, status: String) -> Explanation {
        let lines = match stepper.walk() {
            None => vec![refused_access(stepper.access), status],
            Some((view, walk)) => self.standing(&view, &walk, shown, status),
        };
        Explanation {
            lines,
            why: stepper.why(),
        }
    }

    fn standing(&self, view: &View, walk: &Walk, shown: bool, status: String) -> Vec<String> {
        let read = entries::of(walk);
        let last = read.iter().rfind(|entry| entry.step.read.is_some());
        let last = last.filter(|_| shown);
        if self.style == Style::Tree {
            let drawing = Drawing {
                paint: self.paint,
                shown: last.map(|entry| entry.step),
                going: walk.end.is_none(),
            };
            return drawing.lines(heading(view), walk, status);
        }
        let mut lines = vec![heading(view)];
        lines.extend(last.and_then(|entry| entries::second_stage(entry.stage)));
        lines.extend(last.and_then(|entry| entry.described()));
        lines.push(status);
        lines
    }
}

/// Which entry is next.
fn next(stepper: &Stepper) -> String {
    let title = stepper
        .walk()
        .and_then(|(_, walk)| Some(entries::next(&walk)?.title_with_purpose()));
    format!("next: {}", title.unwrap_or_default())
}
