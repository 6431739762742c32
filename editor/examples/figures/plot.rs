//! Bytes out and pages held over a trace, as a picture: a value for each report.

use super::panels::{self, Curve, Picture, BLUE, ORANGE};
use super::reports;
use vigbuso::{Figures, Trace, Traced};

pub fn svg(trace: &Trace, traced: &Traced) -> String {
    let (places, figures): (Vec<usize>, Vec<&Figures>) = reports(trace, traced).unzip();
    let values = |value: fn(&Figures) -> u64| {
        figures.iter().map(|figures| usize::try_from(value(figures)).unwrap_or(usize::MAX)).collect::<Vec<_>>()
    };
    let (bytes, held) = (values(|figures| figures.bytes.div_ceil(1024)), values(|figures| figures.held));
    let (most_bytes, most_held) = (most(&bytes), most(&held));
    let pages = traced.heap.pages();
    let all = usize::try_from(pages).unwrap_or(usize::MAX);
    let curves = [
        Curve { name: "KiB out".into(), values: bytes, most: most_bytes, colour: ORANGE },
        Curve { name: format!("pages held, of {pages}"), values: held, most: all, colour: BLUE },
    ];
    let description = format!(
        "Two curves over {} steps of a trace, with a value for each of its {} reports. Bytes out are at most {most_bytes} KiB, \
         pages held at most {most_held} of {pages}.",
        traced.words,
        figures.len()
    );
    let picture = Picture {
        title: "Bytes out and pages held over the trace",
        description: &description,
        across: "steps: takes, releases and reports",
    };
    panels::svg(&picture, &places, &curves)
}

fn most(values: &[usize]) -> usize {
    values.iter().copied().max().unwrap_or(0).max(1)
}
