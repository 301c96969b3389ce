//! Where things stand.

use super::label::Label;
use super::legend;
use super::sheet::{self, MARGIN, ROW};
use crate::trace::{Step, Trace};

/// Where the first row starts.
pub const HEAD: f64 = 140.0;

const GAP_BETWEEN_LANES: f64 = 120.0;
const LANE_PADDING: f64 = 16.0;
const NARROWEST_LABEL: f64 = 80.0;
const LONGEST_SCRIPT_TEXT: usize = 26;
const LINE_COLUMN: f64 = 34.0;
const NUMBER_COLUMN: f64 = 56.0;
const BETWEEN_COLUMNS: f64 = 14.0;
const LOOP_DISTANCE: f64 = 6.0;
const LOOPS_SIDE_BY_SIDE: usize = 4;

pub struct Columns {
    pub line_end: f64,
    pub script: f64,
    pub frame_end: f64,
    pub answer_end: f64,
}

impl Columns {
    fn of(trace: &Trace) -> Columns {
        let texts = trace.steps.iter().map(|step| script_text(step).chars().count());
        let line_end = MARGIN + LINE_COLUMN;
        let script = line_end + BETWEEN_COLUMNS;
        let frame_end = script + sheet::text_width(texts.max().unwrap_or(0)) + NUMBER_COLUMN;
        Columns { line_end, script, frame_end, answer_end: frame_end + NUMBER_COLUMN }
    }
}

pub struct Lane {
    pub centre: f64,
    half_width: f64,
}

pub struct Layout {
    pub columns: Columns,
    pub lanes: Vec<Lane>,
    pub width: f64,
    pub height: f64,
}

impl Layout {
    pub fn of(trace: &Trace, labels: &[Option<Label>]) -> Layout {
        let columns = Columns::of(trace);
        let room_for_loops = LOOP_DISTANCE * LOOPS_SIDE_BY_SIDE as f64;
        let mut x = columns.answer_end + BETWEEN_COLUMNS + room_for_loops;
        let mut lanes = Vec::new();
        for unit in 1..=trace.size {
            let on_lane = trace.steps.iter().zip(labels).filter(|(step, _)| step.unit == unit);
            let widths = on_lane.filter_map(|(_, label)| label.as_ref().map(Label::width));
            let half_width = widths.fold(NARROWEST_LABEL, f64::max) / 2.0 + LANE_PADDING;
            lanes.push(Lane { centre: x + half_width, half_width });
            x += 2.0 * half_width + GAP_BETWEEN_LANES;
        }
        let width = (x - GAP_BETWEEN_LANES + room_for_loops + MARGIN).max(legend::WIDTH);
        let height = HEAD + ROW * trace.steps.len() as f64 + MARGIN;
        Layout { columns, lanes, width, height }
    }

    /// The middle of a row.
    pub fn y(&self, row: usize) -> f64 {
        HEAD + (row as f64 + 0.5) * ROW
    }

    /// Where an arrow between two lanes bends beside the first. An arrow from a lane to itself bends on the
    /// outer side of the first lane, on the right of others, and apart from the loops before it.
    pub fn bend(&self, unit: usize, other: usize, loops_before: usize) -> f64 {
        let lane = &self.lanes[unit - 1];
        let (side, distance) = if unit == other {
            let apart = LOOP_DISTANCE * (loops_before % LOOPS_SIDE_BY_SIDE) as f64;
            (if unit == 1 { -1.0 } else { 1.0 }, lane.half_width + apart)
        } else {
            (if other < unit { -1.0 } else { 1.0 }, lane.half_width)
        };
        lane.centre + side * distance
    }
}

pub fn script_text(step: &Step) -> String {
    sheet::shortened(&step.text, LONGEST_SCRIPT_TEXT)
}
