//! Curves over something that goes on, each in a panel of its own, as a picture.

use super::svg::{Colour, Rect, Svg};

const MARGIN: usize = 24;
/// Above the first panel: the title.
const HEAD: usize = 28;
/// Left of the panels: numbers.
const SIDE: usize = 44;
const WIDTH: usize = 760;
const HEIGHT: usize = 150;
/// Above each panel: what it shows. Below the last: numbers.
const ABOVE: usize = 40;
const BELOW: usize = 44;
/// Between the lines of two numbers.
const LABEL: usize = 14;

pub const BLUE: Colour = Colour(40, 110, 180);
pub const ORANGE: Colour = Colour(214, 110, 30);
const GREY: Colour = Colour(220, 220, 220);
const DARK: Colour = Colour(110, 110, 110);

/// A curve: a value for each place, and the number that its panel goes up to.
pub struct Curve {
    pub name: String,
    pub values: Vec<usize>,
    pub most: usize,
    pub colour: Colour,
}

/// A picture: its title, which is the heading too, what there is to see, and what goes on from left to right.
pub struct Picture<'a> {
    pub title: &'a str,
    pub description: &'a str,
    pub across: &'a str,
}

/// The places go up.
pub fn svg(picture: &Picture, places: &[usize], curves: &[Curve]) -> String {
    let last = places.last().copied().unwrap_or(1).max(1);
    let height = 2 * MARGIN + HEAD + curves.len() * (ABOVE + HEIGHT) + BELOW;
    let mut svg = Svg::new(2 * MARGIN + SIDE + WIDTH, height, picture.title, picture.description);
    svg.text(MARGIN, MARGIN + 16, "title", picture.title);
    for (place, curve) in curves.iter().enumerate() {
        let y = MARGIN + HEAD + place * (ABOVE + HEIGHT) + ABOVE;
        let panel = Rect { x: MARGIN + SIDE, y, width: WIDTH, height: HEIGHT };
        draw(&mut svg, panel, curve, places, last);
    }
    let bottom = MARGIN + HEAD + curves.len() * (ABOVE + HEIGHT);
    for place in ticks(last) {
        svg.text(MARGIN + SIDE + place * WIDTH / last, bottom + 18, "size", &place.to_string());
    }
    svg.text(MARGIN + SIDE + WIDTH / 2, bottom + 38, "size", picture.across);
    svg.end()
}

/// A panel: its numbers up to the last, lines across, and the curve from its lowest to its highest value at each pixel.
fn draw(svg: &mut Svg, panel: Rect, curve: &Curve, places: &[usize], last: usize) {
    let height = |value: usize| panel.y + panel.height - value * panel.height / curve.most;
    svg.text(panel.x, panel.y - 10, "entry", &curve.name);
    let below = ticks(curve.most).filter(|&value| height(value) >= panel.y + LABEL);
    for value in below.chain([curve.most]) {
        svg.line((panel.x, height(value)), (panel.x + panel.width, height(value)), GREY, false);
        svg.text(panel.x - 8, height(value) + 4, "left", &value.to_string());
    }
    let points: Vec<_> =
        places.iter().zip(&curve.values).map(|(&place, &value)| (place * panel.width / last, value)).collect();
    let ranges = points.chunk_by(|a, b| a.0 == b.0).map(|at| {
        let values = || at.iter().map(|&(_, value)| value);
        let (low, high) = (values().min().unwrap_or(0), values().max().unwrap_or(0));
        (panel.x + at[0].0, height(low), height(high))
    });
    let ranges: Vec<_> = ranges.collect();
    let upper = ranges.iter().map(|&(x, _, high)| (x, high));
    let lower = ranges.iter().rev().map(|&(x, low, _)| (x, low));
    let points: Vec<_> = upper.chain(lower).collect();
    svg.shape(&points, curve.colour);
    svg.line((panel.x, panel.y), (panel.x, panel.y + panel.height), DARK, false);
    svg.line((panel.x, height(0)), (panel.x + panel.width, height(0)), DARK, false);
}

/// Round numbers from 0 to the limit, about five.
fn ticks(limit: usize) -> impl Iterator<Item = usize> {
    let steps = (0..).flat_map(|power| [1, 2, 5].map(|step| step * 10_usize.pow(power)));
    let step = steps.into_iter().find(|step| limit / step <= 5).expect("some step is large enough");
    (0..=limit).step_by(step)
}
