//! Pages held and blocks out over the search, as a picture.

use super::history::Sample;
use super::panels::{self, Curve, Picture, BLUE, ORANGE};

pub fn svg(samples: &[Sample], arena: usize) -> String {
    let turns = samples.last().map_or(1, |sample| sample.turn as usize);
    let values = |value: fn(&Sample) -> u32| samples.iter().map(|sample| value(sample) as usize).collect::<Vec<_>>();
    let (held, out) = (values(|sample| sample.pages_held), values(|sample| sample.blocks_out));
    let (most_held, most_out) = (most(&held), most(&out));
    let curves = [
        Curve { name: format!("pages held, of {arena}"), values: held, most: arena, colour: BLUE },
        Curve { name: "blocks out".into(), values: out, most: most_out, colour: ORANGE },
    ];
    let description = format!(
        "Two curves over {turns} turns back. Pages held go up to {most_held} of {arena}. Blocks out go up and down with the \
         search, at most {most_out}: what is freed as it turns back is used anew."
    );
    let picture = Picture {
        title: "Pages held and blocks out over the search",
        description: &description,
        across: "times that the search has turned back",
    };
    panels::svg(&picture, &values(|sample| sample.turn), &curves)
}

fn most(values: &[usize]) -> usize {
    values.iter().copied().max().unwrap_or(0).max(1)
}
