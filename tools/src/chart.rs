//! `drive ceiling --chart`: ceiling, proved bound and longest known operation over the number of tasks.

use crate::ceiling::{limits, Limits};
use crate::number::grouped;
use crate::svg::{Anchor, Drawing};

const WIDTH: f64 = 760.0;
const HEIGHT: f64 = 440.0;
const LEFT: f64 = 90.0;
const RIGHT: f64 = 560.0;
const TOP: f64 = 40.0;
const BOTTOM: f64 = 390.0;

/// The powers of ten at the bottom and at the top of the scale.
const LOWEST: f64 = 1.0;
const HIGHEST: f64 = 6.0;

/// A line of the chart: colour, name, where its numbers stand from its points, and the numbers.
type Series = (&'static str, &'static str, (f64, f64, Anchor), fn(&Limits) -> u64);

/// The lines rise: to the left above a point and to the right below it there is room.
const ABOVE: (f64, f64, Anchor) = (-5.0, -5.0, Anchor::End);
const BELOW: (f64, f64, Anchor) = (5.0, 13.0, Anchor::Start);

const SERIES: [Series; 3] = [
    ("#d62728", "ceiling of the contract", ABOVE, |limits| {
        limits.ceiling
    }),
    ("#1f77b4", "proved bound", ABOVE, |limits| limits.proved),
    ("#2ca02c", "longest known", BELOW, |limits| limits.longest),
];

fn x(tasks: usize) -> f64 {
    LEFT + (RIGHT - LEFT) * (tasks as f64 - 0.5) / 8.0
}

fn y(steps: f64) -> f64 {
    BOTTOM - (BOTTOM - TOP) * (steps.log10() - LOWEST) / (HIGHEST - LOWEST)
}

/// The drawing for one to eight tasks.
pub fn chart() -> Result<String, String> {
    let all = (1..=drive_object::MOST_TASKS)
        .map(limits)
        .collect::<Result<Vec<_>, _>>()?;
    let mut drawing = Drawing::default();
    drawing.text(
        (LEFT, 22.0),
        14.0,
        Anchor::Start,
        "Own steps of an operation, by the number of tasks (logarithmic scale)",
    );
    draw_scales(&mut drawing);
    for (colour, name, (right, down, anchor), of) in SERIES {
        let points: Vec<(f64, f64)> = all
            .iter()
            .map(|limits| (x(limits.tasks), y(of(limits) as f64)))
            .collect();
        drawing.trace(&points, colour);
        for (limits, point) in all.iter().zip(&points) {
            drawing.disc(
                *point,
                3.5,
                colour,
                &format!("{} tasks: {}", limits.tasks, grouped(of(limits))),
            );
            let place = (point.0 + right, point.1 + down);
            drawing.text(place, 10.0, anchor, &grouped(of(limits)));
        }
        let (_, last) = points[points.len() - 1];
        drawing.text((RIGHT + 12.0, last + 4.0), 12.0, Anchor::Start, name);
    }
    Ok(drawing.file(WIDTH, HEIGHT))
}

fn draw_scales(drawing: &mut Drawing) {
    for power in LOWEST as u32..=HIGHEST as u32 {
        let steps = 10u64.pow(power);
        let y = y(steps as f64);
        drawing.line((LEFT, y), (RIGHT, y), "#dddddd", 1.0);
        drawing.text((LEFT - 8.0, y + 4.0), 11.0, Anchor::End, &grouped(steps));
    }
    for tasks in 1..=drive_object::MOST_TASKS {
        drawing.text(
            (x(tasks), BOTTOM + 18.0),
            12.0,
            Anchor::Middle,
            &tasks.to_string(),
        );
    }
    let middle = (LEFT + RIGHT) / 2.0;
    drawing.text((middle, BOTTOM + 38.0), 12.0, Anchor::Middle, "tasks");
}
