//! The text of a picture.

use std::fmt::{Arguments, Write};

#[derive(Clone, Copy, PartialEq, Eq, Debug)]
pub struct Colour(pub u8, pub u8, pub u8);

pub const WHITE: Colour = Colour(255, 255, 255);

impl Colour {
    /// As `#rrggbb`.
    pub fn code(self) -> String {
        format!("#{:02x}{:02x}{:02x}", self.0, self.1, self.2)
    }

    /// Half of the colour, the rest white.
    pub fn pale(self) -> Colour {
        let half = |part: u8| 255 - (255 - part) / 2;
        Colour(half(self.0), half(self.1), half(self.2))
    }
}

#[derive(Clone, Copy)]
pub struct Rect {
    pub x: usize,
    pub y: usize,
    pub width: usize,
    pub height: usize,
}

pub struct Svg(String);

const STYLE: &str =
    "text{font-family:'DejaVu Sans',Verdana,sans-serif;fill:#1a1a1a}.title{font-size:18px;font-weight:bold}\
    .note{font-size:12px;fill:#555}.entry{font-size:13px}.size{font-size:12px;text-anchor:middle}\
    .left{font-size:12px;fill:#555;text-anchor:end}";

impl Svg {
    /// An empty picture. Its title is the heading too; the description says what there is to see.
    pub fn new(width: usize, height: usize, title: &str, description: &str) -> Svg {
        let mut svg = Svg(String::new());
        svg.add(format_args!(
            "<svg xmlns=\"http://www.w3.org/2000/svg\" width=\"{width}\" height=\"{height}\" \
             viewBox=\"0 0 {width} {height}\" role=\"img\" aria-labelledby=\"title desc\">\n\
             <title id=\"title\">{title}</title>\n<desc id=\"desc\">{description}</desc>\n<style>{STYLE}</style>\n\
             <rect width=\"{width}\" height=\"{height}\" fill=\"#ffffff\"/>"
        ));
        svg
    }

    fn add(&mut self, line: Arguments) {
        writeln!(self.0, "{line}").expect("a string takes any text");
    }

    /// No text here has a character that XML would read otherwise.
    pub fn text(&mut self, x: usize, y: usize, class: &str, text: &str) {
        self.add(format_args!("<text x=\"{x}\" y=\"{y}\" class=\"{class}\">{text}</text>"));
    }

    pub fn fill(&mut self, Rect { x, y, width, height }: Rect, colour: Colour) {
        let colour = colour.code();
        self.add(format_args!("<rect x=\"{x}\" y=\"{y}\" width=\"{width}\" height=\"{height}\" fill=\"{colour}\"/>"));
    }

    pub fn frame(&mut self, Rect { x, y, width, height }: Rect, dashed: bool) {
        let dashes = if dashed { " stroke-dasharray=\"3 2\"" } else { "" };
        self.add(format_args!(
            "<rect x=\"{x}\" y=\"{y}\" width=\"{width}\" height=\"{height}\" rx=\"3\" fill=\"none\" \
             stroke=\"#777777\"{dashes}/>"
        ));
    }

    pub fn line(&mut self, from: (usize, usize), to: (usize, usize), colour: Colour, dashed: bool) {
        let dashes = if dashed { " stroke-dasharray=\"5 4\"" } else { "" };
        self.add(format_args!(
            "<line x1=\"{}\" y1=\"{}\" x2=\"{}\" y2=\"{}\" stroke=\"{}\"{dashes}/>",
            from.0,
            from.1,
            to.0,
            to.1,
            colour.code()
        ));
    }

    /// A shape through these points.
    pub fn shape(&mut self, points: &[(usize, usize)], colour: Colour) {
        let points: Vec<String> = points.iter().map(|(x, y)| format!("{x},{y}")).collect();
        let (points, colour) = (points.join(" "), colour.code());
        self.add(format_args!(
            "<polygon points=\"{points}\" fill=\"{colour}\" stroke=\"{colour}\" stroke-width=\"1.5\" stroke-linejoin=\"round\"/>"
        ));
    }

    pub fn end(mut self) -> String {
        self.0 += "</svg>\n";
        self.0
    }
}
