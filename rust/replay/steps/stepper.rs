//! A translation that is taken one read at a time.

use crate::reason;
use crate::script::Event;
use crate::stand_in::{Place, Press, Start as _};
use crate::walk::{self, Course, View, Walk};
use balcumentri::{Access, Answer, Hart, Image};

/// The base and the length of an image.
#[derive(Clone, Copy, PartialEq, Eq)]
pub struct Extent {
    pub base: u64,
    pub length: u64,
}

impl Extent {
    pub fn of(image: Image<'_>) -> Self {
        Extent {
            base: image.base,
            length: image.bytes.len() as u64,
        }
    }
}

/// A place of the model, and what it was started with.
pub struct Stepper {
    pub place: Place,
    pub hart: Hart,
    pub access: Access,
    pub extent: Extent,
}

impl Stepper {
    pub fn start(hart: Hart, image: Image<'_>, access: Access) -> Self {
        Stepper {
            place: hart.start(image, access),
            hart,
            access,
            extent: Extent::of(image),
        }
    }

    pub fn press(&mut self, image: Image<'_>) -> Press {
        self.place.press(image)
    }

    /// The walk as far as it has come. None where the start was refused.
    pub fn walk(&self) -> Option<(View, Walk)> {
        let course = match self.place.end() {
            None => Course::Going,
            Some(Answer::Fault(_)) => Course::Faulted,
            Some(Answer::Address(_)) => Course::Reached,
            Some(Answer::Refused(_)) => return None,
        };
        let view = View::of_access(&self.hart, self.access)?;
        let walk = walk::follow(&view, self.place.reads(), course);
        Some((view, walk))
    }

    /// Why it ended with a refusal or a fault.
    pub fn why(&self) -> Option<String> {
        match self.place.end()? {
            Answer::Refused(number) => {
                reason::refused(number, &self.hart, self.extent, &Event::Start(self.access))
            }
            Answer::Fault(_) => self.walk()?.1.why(),
            Answer::Address(_) => None,
        }
    }
}
