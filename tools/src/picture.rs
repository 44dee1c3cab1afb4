//! `drive picture`: the runs of an input as a timeline.

use crate::legend::{self, draw_legend};
use crate::object::Object;
use crate::picture_rows::{draw_row, rows, Labels, Row, LEFT, PICTURE_WIDTH};
use crate::session::serve;
use crate::svg::{Anchor, Drawing};
use crate::timeline::{runs, Run};

/// The drawing, or why there is none.
pub fn timeline(file: &[u8], input: &[u8]) -> Result<String, String> {
    let object = Object::of(file)?;
    let labels = Labels {
        states: object.state_names(),
        operations: object.operation_names(),
    };
    let session = serve(file, input)?;
    let runs = runs(session.served.into_iter().flat_map(|served| served.events));
    if runs.is_empty() {
        return Err("no line starts a run: there is nothing to draw".into());
    }
    let mut drawing = Drawing::default();
    let mut top = 10.0;
    for (number, run) in runs.iter().enumerate() {
        top = draw_run(&mut drawing, top, number, run, &labels);
    }
    draw_legend(&mut drawing, (LEFT, top));
    Ok(drawing.file(PICTURE_WIDTH, top + legend::HEIGHT))
}

/// The rows of a run from `top` down; where the next thing may stand.
fn draw_run(drawing: &mut Drawing, top: f64, number: usize, run: &Run, labels: &Labels) -> f64 {
    let (tasks, calls) = (run.tasks, run.columns.len());
    let title = format!(
        "Run {}, tasks: {tasks}, accepted calls of begin and step: {calls}",
        number + 1
    );
    drawing.text((10.0, top + 12.0), 13.0, Anchor::Start, &title);
    let mut top = top + 22.0;
    for columns in rows(run) {
        let row = Row::new(run, columns, top);
        draw_row(drawing, &row, labels);
        top += row.height();
    }
    top
}
