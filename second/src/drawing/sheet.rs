//! SVG shapes.

use std::fmt::Write;

pub const ROW: f64 = 28.0;
pub const MARGIN: f64 = 20.0;
pub const SYMBOL: f64 = 14.0;

const CHARACTER: f64 = 7.3;
const LABEL_HEIGHT: f64 = 20.0;
/// From the middle of a line of text down to its base.
const BELOW_MIDDLE: f64 = 4.2;
const HEAD_LENGTH: f64 = 8.0;

const STYLE: &str = "\
text{font:12px 'DejaVu Sans Mono',Menlo,Consolas,monospace}\
.title{font-size:16px;font-weight:bold}\
.heading{font-size:13px;font-weight:bold;text-anchor:middle;fill:#fff}\
.before{text-anchor:end}\
.arrow{fill:none;stroke-width:1.5;stroke-linejoin:round}";

#[derive(Clone, Copy, Debug, PartialEq, Eq)]
pub enum Colour {
    Ink,
    Quiet,
    Refused,
    Cab(usize),
}

impl Colour {
    fn code(self) -> &'static str {
        match self {
            Colour::Ink => "#1a1a1a",
            Colour::Quiet => "#6b6b6b",
            Colour::Refused => "#c4161c",
            Colour::Cab(1) => "#1b4f8a",
            Colour::Cab(2) => "#23703a",
            Colour::Cab(_) => "#7a3d91",
        }
    }
}

#[derive(Clone, Copy, Debug, PartialEq, Eq)]
pub enum Symbol {
    Sent,
    Refused,
    PreAcknowledged,
    Confirmed,
    Taken,
}

/// A line from a label through the borders of two lanes to another label.
pub struct Line {
    pub points: [(f64, f64); 4],
    pub colour: Colour,
    pub dashed: bool,
    pub refused: bool,
}

pub struct Sheet {
    width: f64,
    height: f64,
    body: String,
}

impl Sheet {
    pub fn new(width: f64, height: f64) -> Sheet {
        Sheet { width, height, body: String::new() }
    }

    pub fn finish(self) -> String {
        let Sheet { width, height, body } = self;
        format!(
            "<svg xmlns=\"http://www.w3.org/2000/svg\" width=\"{width:.0}\" height=\"{height:.0}\" \
             viewBox=\"0 0 {width:.0} {height:.0}\">\n<style>{STYLE}</style>\n\
             <rect width=\"100%\" height=\"100%\" fill=\"#fff\"/>\n{body}</svg>\n"
        )
    }

    fn put(&mut self, element: std::fmt::Arguments) {
        writeln!(self.body, "{element}").expect("a string takes all that is written");
    }

    pub fn band(&mut self, x: f64, y: f64, width: f64, height: f64) {
        self.put(format_args!(
            "<rect x=\"{x:.1}\" y=\"{y:.1}\" width=\"{width:.1}\" height=\"{height:.1}\" fill=\"#f4f4f4\"/>"
        ));
    }

    pub fn lane(&mut self, x: f64, top: f64, bottom: f64) {
        self.put(format_args!(
            "<path d=\"M{x:.1} {top:.1}V{bottom:.1}\" stroke=\"#b5b5b5\" stroke-width=\"2\"/>"
        ));
    }

    pub fn heading(&mut self, x: f64, y: f64, colour: Colour, text: &str) {
        let width = text_width(text.len()) + 24.0;
        let (left, top) = (x - width / 2.0, y - 12.0);
        let (fill, y) = (colour.code(), y + BELOW_MIDDLE);
        self.put(format_args!(
            "<rect x=\"{left:.1}\" y=\"{top:.1}\" width=\"{width:.1}\" height=\"24\" rx=\"4\" fill=\"{fill}\"/>\
             <text class=\"heading\" x=\"{x:.1}\" y=\"{y:.1}\">{text}</text>"
        ));
    }

    pub fn title(&mut self, x: f64, y: f64, text: &str) {
        self.put(format_args!("<text class=\"title\" x=\"{x:.1}\" y=\"{y:.1}\">{text}</text>"));
    }

    pub fn text(&mut self, x: f64, y: f64, colour: Colour, text: &str) {
        let (y, fill, text) = (y + BELOW_MIDDLE, colour.code(), escaped(text));
        self.put(format_args!("<text x=\"{x:.1}\" y=\"{y:.1}\" fill=\"{fill}\">{text}</text>"));
    }

    pub fn text_before(&mut self, x: f64, y: f64, colour: Colour, text: &str) {
        let (y, fill, text) = (y + BELOW_MIDDLE, colour.code(), escaped(text));
        self.put(format_args!(
            "<text class=\"before\" x=\"{x:.1}\" y=\"{y:.1}\" fill=\"{fill}\">{text}</text>"
        ));
    }

    pub fn frame(&mut self, x: f64, y: f64, width: f64, colour: Colour, dashed: bool) {
        let (top, stroke, dashes) = (y - LABEL_HEIGHT / 2.0, colour.code(), dashes(dashed));
        self.put(format_args!(
            "<rect x=\"{x:.1}\" y=\"{top:.1}\" width=\"{width:.1}\" \
             height=\"{LABEL_HEIGHT}\" rx=\"5\" fill=\"#fff\" stroke=\"{stroke}\" stroke-width=\"1.3\"{dashes}/>"
        ));
    }

    /// An arrow that ends with a head, or with a cross where the frame is refused.
    pub fn arrow(&mut self, line: &Line) {
        let [(x, y), second, third, (end_x, end_y)] = line.points;
        let (stroke, dashes) = (line.colour.code(), dashes(line.dashed));
        self.put(format_args!(
            "<path class=\"arrow\" d=\"M{x:.1} {y:.1}L{:.1} {:.1}L{:.1} {:.1}H{end_x:.1}\" \
             stroke=\"{stroke}\"{dashes}/>",
            second.0, second.1, third.0, third.1
        ));
        let back = HEAD_LENGTH.copysign(third.0 - end_x);
        if line.refused {
            self.symbol(Symbol::Refused, end_x + back, end_y, line.colour);
        } else {
            let (base, half) = (end_x + back, HEAD_LENGTH / 2.0);
            self.put(format_args!(
                "<path d=\"M{end_x:.1} {end_y:.1}L{base:.1} {:.1}V{:.1}Z\" fill=\"{stroke}\"/>",
                end_y - half,
                end_y + half
            ));
        }
    }

    pub fn symbol(&mut self, symbol: Symbol, x: f64, y: f64, colour: Colour) {
        let colour = colour.code();
        let stroke = format!("fill=\"none\" stroke=\"{colour}\" stroke-width=\"2\"");
        let diamond = format!("M{:.1} {y:.1}l5 -5l5 5l-5 5Z", x - 5.0);
        match symbol {
            Symbol::Sent => {
                self.put(format_args!(
                    "<circle cx=\"{x:.1}\" cy=\"{y:.1}\" r=\"4.5\" fill=\"{colour}\"/>"
                ));
            }
            Symbol::Refused => self.put(format_args!(
                "<path d=\"M{:.1} {:.1}l8 8m0 -8l-8 8\" {stroke}/>",
                x - 4.0,
                y - 4.0
            )),
            Symbol::PreAcknowledged => self.put(format_args!(
                "<path d=\"{diamond}\" fill=\"#fff\" stroke=\"{colour}\" stroke-width=\"1.3\"/>"
            )),
            Symbol::Confirmed => self.put(format_args!(
                "<path d=\"{diamond}\" fill=\"{colour}\" stroke=\"{colour}\" stroke-width=\"1.3\"/>"
            )),
            Symbol::Taken => self
                .put(format_args!("<path d=\"M{:.1} {y:.1}l3.5 4l6.5 -8.5\" {stroke}/>", x - 5.0)),
        }
    }
}

fn dashes(dashed: bool) -> &'static str {
    if dashed {
        " stroke-dasharray=\"6 4\""
    } else {
        ""
    }
}

pub fn text_width(characters: usize) -> f64 {
    characters as f64 * CHARACTER
}

pub fn shortened(text: &str, longest: usize) -> String {
    if text.chars().count() <= longest {
        text.to_owned()
    } else {
        text.chars().take(longest - 1).chain(['…']).collect()
    }
}

fn escaped(text: &str) -> String {
    text.replace('&', "&amp;").replace('<', "&lt;").replace('>', "&gt;")
}
