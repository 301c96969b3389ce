//! The picture of a run: a lane for each cab, time downwards by line number.

mod label;
mod layout;
mod legend;
mod sheet;

use crate::script::Outcome;
use crate::trace::{Act, Content, Step, Trace};
use label::Label;
use layout::{Layout, HEAD};
use sheet::{Colour, Line, Sheet, MARGIN, ROW};

/// The picture as an SVG document.
pub fn draw(trace: &Trace) -> String {
    let picture = Picture::of(trace);
    let mut sheet = Sheet::new(picture.layout.width, picture.layout.height);
    picture.draw_rows(&mut sheet);
    picture.draw_lanes(&mut sheet);
    picture.draw_arrows(&mut sheet);
    picture.draw_labels(&mut sheet);
    legend::draw(&mut sheet, &format!("Group of {} cabs, window {}", trace.size, trace.window));
    sheet.finish()
}

struct Picture<'a> {
    trace: &'a Trace,
    /// The label of each step; none where no cab acts.
    labels: Vec<Option<Label>>,
    layout: Layout,
}

impl Picture<'_> {
    fn of(trace: &Trace) -> Picture<'_> {
        let labels: Vec<_> = trace.steps.iter().map(|step| label::of(step, trace)).collect();
        let layout = Layout::of(trace, &labels);
        Picture { trace, labels, layout }
    }

    fn draw_rows(&self, sheet: &mut Sheet) {
        let columns = &self.layout.columns;
        let heading_y = HEAD - ROW / 2.0;
        sheet.text(columns.script, heading_y, Colour::Quiet, "script");
        for (end, heading) in [
            (columns.line_end, "line"),
            (columns.frame_end, "frame"),
            (columns.answer_end, "answer"),
        ] {
            sheet.text_before(end, heading_y, Colour::Quiet, heading);
        }
        for (row, step) in self.trace.steps.iter().enumerate() {
            if row % 2 == 0 {
                let top = self.layout.y(row) - ROW / 2.0;
                sheet.band(MARGIN / 2.0, top, self.layout.width - MARGIN, ROW);
            }
            self.draw_row(sheet, row, step);
        }
    }

    fn draw_row(&self, sheet: &mut Sheet, row: usize, step: &Step) {
        let (columns, y) = (&self.layout.columns, self.layout.y(row));
        let answer = step.outcome.answer();
        let colour = if answer == Some(0) { Colour::Quiet } else { Colour::Refused };
        let answer = answer.map_or("?".to_owned(), |answer| answer.to_string());
        sheet.text_before(columns.line_end, y, Colour::Quiet, &(row + 2).to_string());
        sheet.text(columns.script, y, Colour::Ink, &layout::script_text(step));
        sheet.text_before(columns.answer_end, y, colour, &answer);
        if let Act::Send { wrote: Some(frame) } | Act::Request { wrote: Some(frame) } = step.act {
            sheet.text_before(columns.frame_end, y, Colour::Quiet, &(frame + 1).to_string());
        }
    }

    fn draw_lanes(&self, sheet: &mut Sheet) {
        for (lane, unit) in self.layout.lanes.iter().zip(1..) {
            sheet.lane(lane.centre, HEAD - ROW, self.layout.height - MARGIN);
            sheet.heading(lane.centre, HEAD - ROW, Colour::Cab(unit), &format!("cab {unit}"));
        }
    }

    /// Arrows of refused frames stand below the others, which they may share a stretch with.
    fn draw_arrows(&self, sheet: &mut Sheet) {
        let mut arrows: Vec<Line> = Vec::new();
        let mut loops = 0;
        for (row, step) in self.trace.steps.iter().enumerate() {
            if let Act::Arrive { frame } = step.act {
                arrows.push(self.arrow(frame, row, loops));
                loops += usize::from(self.trace.frames[frame].unit == step.unit);
            }
        }
        arrows.sort_by_key(|arrow| !arrow.refused);
        for arrow in &arrows {
            sheet.arrow(arrow);
        }
    }

    fn arrow(&self, frame: usize, row: usize, loops_before: usize) -> Line {
        let step = &self.trace.steps[row];
        let written = &self.trace.frames[frame];
        let (from, to) = (written.unit, step.unit);
        let bend_out = self.layout.bend(from, to, loops_before);
        let bend_in = self.layout.bend(to, from, loops_before);
        let (start_y, end_y) = (self.layout.y(written.step), self.layout.y(row));
        let refused = matches!(step.outcome, Outcome::Refused(_));
        Line {
            points: [
                (self.label_edge(from, written.step, bend_out), start_y),
                (bend_out, start_y),
                (bend_in, end_y),
                (self.label_edge(to, row, bend_in), end_y),
            ],
            colour: if refused { Colour::Refused } else { Colour::Cab(from) },
            dashed: matches!(written.content, Content::Request { .. }),
            refused,
        }
    }

    /// The edge of a row's label on the side of a place beside it.
    fn label_edge(&self, unit: usize, row: usize, beside: f64) -> f64 {
        let centre = self.layout.lanes[unit - 1].centre;
        let half_width = self.labels[row].as_ref().map_or(0.0, Label::width) / 2.0;
        centre + half_width.copysign(beside - centre)
    }

    fn draw_labels(&self, sheet: &mut Sheet) {
        for (row, (step, label)) in self.trace.steps.iter().zip(&self.labels).enumerate() {
            if let Some(label) = label {
                label.draw(sheet, self.layout.lanes[step.unit - 1].centre, self.layout.y(row));
            }
        }
    }
}
