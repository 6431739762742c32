//! The arena's pages by holder, as text and as a picture.

use std::collections::BTreeMap;

use super::blocks::PAGE_BYTES;
use super::pages::{Holder, Pages};
use super::svg::{Colour, Rect, Svg, WHITE};

/// Pages in a row.
const ROW: usize = 16;

/// A letter for each page, sixteen to a line, those of a span or run joined by a dash, and what they stand for.
pub fn text(pages: &Pages) -> String {
    let symbols = symbols(pages);
    let rows = (0..pages.all().len()).step_by(ROW).map(|row| text_row(pages, &symbols, row));
    let entry =
        |(holder, number): (Holder, usize)| format!("    {} {:32}{number:>4}\n", symbols[&holder], holder.name());
    let legend = pages.holders().into_iter().map(entry);
    std::iter::once(format!("{}\n", title(pages))).chain(rows).chain(legend).collect()
}

fn symbols(pages: &Pages) -> BTreeMap<Holder, char> {
    let mut letters = ('a'..='z').chain('A'..='Z').chain('0'..='9').cycle();
    let mut symbol = |holder| match holder {
        Holder::Direct => '=',
        Holder::Hole => '_',
        Holder::Fresh => '.',
        Holder::Parked(..) => '~',
        Holder::Class(..) => letters.next().expect("the letters go round"),
    };
    pages.holders().iter().map(|&(holder, _)| (holder, symbol(holder))).collect()
}

fn text_row(pages: &Pages, symbols: &BTreeMap<Holder, char>, first: usize) -> String {
    let symbol = |page: usize| {
        let before = if page > first && pages.joined(page - 1) { '-' } else { ' ' };
        [before, symbols[&pages.all()[page].holder]]
    };
    let row: String = (first..pages.all().len().min(first + ROW)).flat_map(symbol).collect();
    format!("{first:>5} {row}\n")
}

fn title(pages: &Pages) -> String {
    format!("The arena's {} pages of {} KiB, by holder", pages.all().len(), PAGE_BYTES / 1024)
}

/// Pixels of a page's square, with the gap to the next.
const SQUARE: usize = 52;
const GAP: usize = 6;
const MARGIN: usize = 24;
/// Above the squares: title and explanation.
const HEAD: usize = 64;
/// Left of the squares: the number of the row's first page.
const SIDE: usize = 28;
const LEGEND_COLUMNS: usize = 3;
const LEGEND_LINE: usize = 24;
const SWATCH: usize = 16;
/// At the top of each field.
const STRIPE: usize = 8;

const NOTE: &str =
    "On a page: the bytes of its blocks; the part filled from below is in use. Pages of one span or one run are one field.";

/// A square for each page, filled up to the part in use, those of a span or run as one field, and a legend.
pub fn svg(pages: &Pages) -> String {
    let holders = pages.holders();
    let colours = colours(&holders);
    let width = 2 * MARGIN + SIDE + ROW * SQUARE;
    let legend = MARGIN + HEAD + pages.all().len().div_ceil(ROW) * SQUARE + MARGIN;
    let height = legend + holders.len().div_ceil(LEGEND_COLUMNS) * LEGEND_LINE + MARGIN;
    let mut svg = Svg::new(width, height, &title(pages), &description(&holders));
    svg.text(MARGIN, MARGIN + 16, "title", &title(pages));
    svg.text(MARGIN, MARGIN + 38, "note", NOTE);
    for row in (0..pages.all().len()).step_by(ROW) {
        svg.text(MARGIN, MARGIN + HEAD + row / ROW * SQUARE + SQUARE / 2 + 2, "note", &row.to_string());
    }
    for field in fields(pages) {
        draw(&mut svg, pages, field, colours[&pages.all()[field.0].holder]);
    }
    draw_legend(&mut svg, &holders, &colours, legend);
    svg.end()
}

fn description(holders: &[(Holder, usize)]) -> String {
    let entries: Vec<String> = holders.iter().map(|&(holder, number)| entry(holder, number)).collect();
    format!("A square for each page, filled up to the part in use. {}.", entries.join("; "))
}

fn entry(holder: Holder, number: usize) -> String {
    format!("{}, {number} page{}", holder.name(), if number == 1 { "" } else { "s" })
}

/// The first and the last page of each span, run or page alone, in parts where it goes over the end of a row.
fn fields(pages: &Pages) -> Vec<(usize, usize)> {
    let mut fields = Vec::new();
    let mut first = 0;
    for page in 0..pages.all().len() {
        if !pages.joined(page) || page % ROW == ROW - 1 {
            fields.push((first, page));
            first = page + 1;
        }
    }
    fields
}

/// A field: a stripe of its colour, which is pale below it where no byte is in use. It reaches out of the row where it goes on in another.
fn draw(svg: &mut Svg, pages: &Pages, (first, last): (usize, usize), colour: Colour) {
    let (from_before, goes_on) = (first > 0 && pages.joined(first - 1), pages.joined(last));
    let out = |reaches: bool| if reaches { GAP } else { 0 };
    let x = |page: usize| MARGIN + SIDE + page % ROW * SQUARE;
    let left = x(first) - out(from_before);
    let width = x(last) + SQUARE - GAP + out(goes_on) - left;
    let field = Rect { x: left, y: MARGIN + HEAD + first / ROW * SQUARE, width, height: SQUARE - GAP };
    let holder = pages.all()[first].holder;
    svg.fill(field, if matches!(holder, Holder::Class(..)) { colour.pale() } else { colour });
    for page in first..=last {
        let height = (field.height * pages.all()[page].in_use).div_ceil(PAGE_BYTES);
        let left = if page == first { field.x } else { x(page) };
        let right = if page == last { field.x + field.width } else { x(page + 1) };
        if height > 0 {
            svg.fill(Rect { x: left, y: field.y + field.height - height, width: right - left, height }, colour);
        }
    }
    svg.fill(Rect { height: STRIPE, ..field }, colour);
    svg.frame(field, is_idle(holder));
    svg.text(field.x + field.width / 2, field.y + field.height / 2 + 4, "size", &label(holder));
}

/// A page that was in use and is not.
fn is_idle(holder: Holder) -> bool {
    matches!(holder, Holder::Hole | Holder::Parked(_))
}

fn label(holder: Holder) -> String {
    match holder {
        Holder::Direct => "run".into(),
        Holder::Class(class) => class.bytes().to_string(),
        Holder::Parked(..) => "parked".into(),
        Holder::Hole => "hole".into(),
        Holder::Fresh => String::new(),
    }
}

fn draw_legend(svg: &mut Svg, holders: &[(Holder, usize)], colours: &BTreeMap<Holder, Colour>, top: usize) {
    let lines = holders.len().div_ceil(LEGEND_COLUMNS);
    for (place, &(holder, number)) in holders.iter().enumerate() {
        let x = MARGIN + place / lines * ((SIDE + ROW * SQUARE) / LEGEND_COLUMNS);
        let y = top + place % lines * LEGEND_LINE;
        let swatch = Rect { x, y, width: SWATCH, height: SWATCH };
        svg.fill(swatch, colours[&holder]);
        svg.frame(swatch, is_idle(holder));
        svg.text(x + SWATCH + 8, y + 13, "entry", &entry(holder, number));
    }
}

const GREY: Colour = Colour(232, 232, 232);
const MIST: Colour = Colour(214, 226, 236);
const YELLOW: Colour = Colour(250, 215, 90);

/// Classes have these in turn: twenty that the eye tells apart, from each other and from the colours above, neighbours most of all.
const CLASSES: [Colour; 20] = [
    Colour(110, 178, 230),
    Colour(250, 160, 50),
    Colour(220, 50, 70),
    Colour(130, 180, 40),
    Colour(50, 120, 240),
    Colour(40, 230, 220),
    Colour(250, 100, 160),
    Colour(180, 110, 50),
    Colour(130, 110, 180),
    Colour(40, 230, 140),
    Colour(40, 170, 120),
    Colour(100, 130, 70),
    Colour(190, 80, 190),
    Colour(240, 180, 250),
    Colour(250, 140, 130),
    Colour(170, 220, 170),
    Colour(40, 130, 130),
    Colour(160, 150, 130),
    Colour(160, 100, 120),
    Colour(250, 200, 150),
];

fn colours(holders: &[(Holder, usize)]) -> BTreeMap<Holder, Colour> {
    let mut classes = CLASSES.into_iter().cycle();
    let mut colour = |holder| match holder {
        Holder::Direct => YELLOW,
        Holder::Hole => WHITE,
        Holder::Fresh => GREY,
        Holder::Parked(..) => MIST,
        Holder::Class(..) => classes.next().expect("the colours go round"),
    };
    holders.iter().map(|&(holder, _)| (holder, colour(holder))).collect()
}
