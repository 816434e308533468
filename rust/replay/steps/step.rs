//! `--step`: a script whose translations are taken one read at a time, by the model's stepping engine.

use crate::answers;
use crate::descriptor::Descriptor;
use crate::entries::counted;
use crate::explain::{Explainer, Style};
use crate::frame::Frame;
use crate::happened::Came;
use crate::input::Stop;
use crate::paint::Paint;
use crate::run::Replay;
use crate::script::Event;
use crate::stand_in::{Place, Press};
use crate::stepper::Stepper;
use balcumentri::{Access, Translation};
use std::io::{BufRead, BufReader, Read, Write};
use std::path::Path;

/// What comes next.
#[derive(Clone, Copy, PartialEq, Eq)]
pub enum Go {
    On,
    /// To the end of this translation.
    ToEnd,
    Leave,
}

/// A translation as it stands.
pub struct Shown<'a> {
    /// The number and the words of the script's line.
    pub line: u64,
    pub text: String,
    pub stepper: &'a Stepper,
    /// The last press; none behind the start.
    pub press: Option<Press>,
}

/// Someone who looks at a script that is stepped.
pub trait Viewer {
    /// Where answers are written.
    fn answers(&mut self) -> &mut impl Write;
    /// Takes the answer of another event, with its explanation.
    fn say(&mut self, answer: &str) -> Result<(), Stop>;
    /// Shows a translation, and waits to be told what comes next.
    fn show(&mut self, shown: &Shown<'_>) -> Result<Go, Stop>;
    /// Shows what has not been shown.
    fn finish(&mut self) -> Result<(), Stop>;
}

/// Runs a script to its end, to its first bad line, or until the viewer leaves.
pub fn run(script: impl Read, folder: &Path, viewer: &mut impl Viewer) -> Result<(), Stop> {
    let mut replay = Replay::new(script, folder);
    let explainer = Explainer {
        style: Style::Words,
        paint: Paint::none(),
    };
    while let Some(event) = replay.advance(viewer.answers())? {
        if let Event::Translate(access) = event {
            if step(&replay, access, viewer)? == Go::Leave {
                return Ok(());
            }
        } else {
            let mut answer = Vec::new();
            replay.answer(&event, Some(&explainer), &mut answer)?;
            viewer.say(&String::from_utf8_lossy(&answer))?;
        }
    }
    viewer.finish()
}

/// Takes a translation one read at a time, and holds each step against the translation at once.
fn step<R: Read>(
    replay: &Replay<'_, R>,
    access: Access,
    viewer: &mut impl Viewer,
) -> Result<Go, Stop> {
    let (hart, image) = (replay.scene.hart, replay.scene.image());
    let differs = |sentence| Stop::Differs(replay.line(), sentence);
    let translation = hart.translate(image, access);
    let mut stepper = Stepper::start(hart, image, access);
    let mut press = None;
    let mut go = Go::On;
    loop {
        agree(&stepper.place, &translation).map_err(differs)?;
        let ended = stepper.place.end().is_some();
        if ended || go != Go::ToEnd {
            let (line, text) = (replay.line(), replay.text());
            go = viewer.show(&Shown {
                line,
                text,
                stepper: &stepper,
                press,
            })?;
        }
        if go == Go::Leave {
            return Ok(go);
        }
        if ended {
            break;
        }
        press = Some(stepper.press(image));
    }
    let came = Came::Translated(Box::new(translation));
    answers::write(viewer.answers(), &came, &hart).map_err(Stop::Answers)?;
    Ok(Go::On)
}

/// Whether the entries read so far are the first of a translation's, and it has ended with the last of them and with its answer.
fn agree(place: &Place, translation: &Translation) -> Result<(), String> {
    let (shown, reads) = (place.reads(), translation.reads());
    let end = (shown.len() == reads.len()).then(|| translation.answer());
    if reads.starts_with(shown) && place.end() == end {
        return Ok(());
    }
    let shown = counted(shown.len() as u64);
    Err(format!(
        "with {shown} read the stepping engine is not where the translation is: {:?}, not {end:?}",
        place.end()
    ))
}
