//! Title and legend.

use super::sheet::{Colour, Line, Sheet, Symbol, MARGIN};

pub const WIDTH: f64 = 900.0;

const TITLE_Y: f64 = 24.0;
const FIRST_Y: f64 = 52.0;
const SECOND_Y: f64 = 74.0;
const COLUMN: f64 = 180.0;
const ARROW_LENGTH: f64 = 40.0;

pub fn draw(sheet: &mut Sheet, title: &str) {
    sheet.title(MARGIN, TITLE_Y, title);
    let arrows = [("arrives", false, false), ("refused", false, true), ("request", true, false)];
    for (column, (text, dashed, refused)) in arrows.into_iter().enumerate() {
        let x = column_start(column);
        let colour = if refused { Colour::Refused } else { Colour::Ink };
        let points = [x, x, x, x + ARROW_LENGTH].map(|x| (x, FIRST_Y));
        sheet.arrow(&Line { points, colour, dashed, refused });
        sheet.text(x + ARROW_LENGTH + 8.0, FIRST_Y, Colour::Ink, text);
    }
    sheet.text(column_start(3), FIRST_Y, Colour::Ink, "1.2  second message of cab 1");
    let symbols = [
        (Symbol::Sent, "sent"),
        (Symbol::PreAcknowledged, "pre-acknowledged"),
        (Symbol::Confirmed, "confirmed"),
        (Symbol::Taken, "taken"),
    ];
    for (column, (symbol, text)) in symbols.into_iter().enumerate() {
        let x = column_start(column);
        sheet.symbol(symbol, x + 6.0, SECOND_Y, Colour::Ink);
        sheet.text(x + 20.0, SECOND_Y, Colour::Ink, text);
    }
}

fn column_start(column: usize) -> f64 {
    MARGIN + COLUMN * column as f64
}
