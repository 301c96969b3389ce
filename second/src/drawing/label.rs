//! The label of one step on its cab's lane.

use super::sheet::{self, Colour, Sheet, Symbol, SYMBOL};
use crate::engine::Refusal;
use crate::script::Outcome;
use crate::trace::{Act, Content, Name, Step, Trace};

const PADDING: f64 = 8.0;
const SPACE: f64 = 6.0;
const LONGEST_WORD: usize = 14;

enum Part {
    Text(String),
    Symbol(Symbol),
}

impl Part {
    fn width(&self) -> f64 {
        match self {
            Part::Text(text) => sheet::text_width(text.chars().count()),
            Part::Symbol(_) => SYMBOL,
        }
    }
}

pub struct Label {
    parts: Vec<Part>,
    colour: Colour,
    dashed: bool,
}

impl Label {
    pub fn width(&self) -> f64 {
        let spaces = SPACE * self.parts.len().saturating_sub(1) as f64;
        self.parts.iter().map(Part::width).sum::<f64>() + spaces + 2.0 * PADDING
    }

    pub fn draw(&self, sheet: &mut Sheet, centre: f64, y: f64) {
        let left = centre - self.width() / 2.0;
        sheet.frame(left, y, self.width(), self.colour, self.dashed);
        let mut x = left + PADDING;
        for part in &self.parts {
            match part {
                Part::Text(text) => sheet.text(x, y, self.text_colour(), text),
                Part::Symbol(symbol) => sheet.symbol(*symbol, x + SYMBOL / 2.0, y, self.colour),
            }
            x += part.width() + SPACE;
        }
    }

    fn text_colour(&self) -> Colour {
        if self.colour == Colour::Refused {
            Colour::Refused
        } else {
            Colour::Ink
        }
    }
}

/// Nothing for a line that no cab acts on.
pub fn of(step: &Step, trace: &Trace) -> Option<Label> {
    let frame = match step.act {
        Act::Unreadable => return None,
        Act::Send { wrote } | Act::Request { wrote } => wrote,
        Act::Arrive { frame } => Some(frame),
        Act::Take => None,
    };
    let content = frame.map(|frame| &trace.frames[frame].content);
    let mut parts = match &step.outcome {
        Outcome::Refused(refusal) => refused_parts(*refusal, step, content),
        outcome => done_parts(outcome, step, content),
    };
    parts.extend(marked(Symbol::PreAcknowledged, &step.pre_acknowledged));
    parts.extend(marked(Symbol::Confirmed, &step.confirmed));
    let colour = match step.outcome {
        Outcome::Refused(_) => Colour::Refused,
        _ => Colour::Cab(step.unit),
    };
    let dashed = matches!(content, Some(Content::Request { .. }));
    Some(Label { parts, colour, dashed })
}

fn refused_parts(refusal: Refusal, step: &Step, content: Option<&Content>) -> Vec<Part> {
    let why = format!("{} {}", refusal.number(), explanation(refusal, step));
    let mut parts = vec![Part::Symbol(Symbol::Refused), Part::Text(why)];
    if let Some(Content::Message { name, .. }) = content {
        parts.push(Part::Text(format!("({name})")));
    }
    parts
}

fn done_parts(outcome: &Outcome, step: &Step, content: Option<&Content>) -> Vec<Part> {
    let mut parts = match (&step.act, outcome) {
        (Act::Send { .. }, _) => vec![Part::Symbol(Symbol::Sent)],
        (_, Outcome::Taken { .. }) => vec![Part::Symbol(Symbol::Taken)],
        _ => Vec::new(),
    };
    let text = match (outcome, content) {
        (Outcome::Taken { sender, number, word }, _) => {
            named(&Name { sender: *sender, number: *number }, word)
        }
        (Outcome::Resend { first, last }, _) => {
            format!("resend {}", numbers(step.unit, *first, *last))
        }
        (_, Some(Content::Message { name, word })) => named(name, word),
        (_, Some(Content::Request { about, first, last })) => {
            format!("ask for {}", numbers(*about, *first, *last))
        }
        (_, None) => String::new(),
    };
    parts.push(Part::Text(text));
    parts
}

fn named(name: &Name, word: &str) -> String {
    format!("{name} {}", sheet::shortened(word, LONGEST_WORD))
}

fn marked(symbol: Symbol, names: &[Name]) -> Vec<Part> {
    if names.is_empty() {
        return Vec::new();
    }
    vec![Part::Symbol(symbol), Part::Text(in_runs(names))]
}

/// Names in their order, successive numbers of one sender drawn together.
fn in_runs(names: &[Name]) -> String {
    let successive = |a: &Name, b: &Name| a.sender == b.sender && a.number + 1 == b.number;
    let runs = names.chunk_by(successive);
    let texts: Vec<String> =
        runs.map(|run| numbers(run[0].sender, run[0].number, run[run.len() - 1].number)).collect();
    texts.join(" ")
}

fn numbers(sender: usize, first: u32, last: u32) -> String {
    if first == last {
        format!("{sender}.{first}")
    } else {
        format!("{sender}.{first}-{last}")
    }
}

fn explanation(refusal: Refusal, step: &Step) -> &'static str {
    match (refusal, &step.act) {
        (Refusal::NotSound, _) => "unit not sound",
        (Refusal::OutsideRanges, _) => "outside the ranges",
        (Refusal::NotAFrame, _) => "not a frame",
        (Refusal::OtherGroup, _) => "other group",
        (Refusal::NotInGroup, _) => "not another cab",
        (Refusal::FromOneself, _) => "own frame",
        (Refusal::Contradiction, _) => "contradiction",
        (Refusal::Repeat, _) => "repeat",
        (Refusal::Gap, _) => "gap",
        (Refusal::Early, _) => "early",
        (Refusal::Backward, _) => "backward",
        (Refusal::PlacesTaken, _) => "places full",
        (Refusal::TooMuchData, _) => "word too long",
        (Refusal::NumbersUsedUp, _) => "numbers used up",
        (Refusal::WindowShut, _) => "window shut",
        (Refusal::OutputTooShort, _) => "output too short",
        (Refusal::ForAnother, _) => "for another cab",
        (Refusal::Nothing, Act::Take) => "nothing to take",
        (Refusal::Nothing, Act::Request { .. }) => "nothing missing",
        (Refusal::Nothing, _) => "nothing to resend",
    }
}
