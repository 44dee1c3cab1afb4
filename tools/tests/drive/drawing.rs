//! A picture taken apart: its rectangles and labels, and its rows with their lanes and the marks on them.

use crate::second_run::Call;

/// An element of the picture, as the line that it stands in.
struct Element<'a>(&'a str);

impl<'a> Element<'a> {
    fn word(&self, attribute: &str) -> Option<&'a str> {
        let (_, after) = self.0.split_once(&format!(" {attribute}='"))?;
        after.split('\'').next()
    }

    fn number(&self, attribute: &str) -> f64 {
        let word = self.word(attribute).and_then(|word| word.parse().ok());
        word.unwrap_or(f64::NAN)
    }

    fn text(&self) -> Option<&'a str> {
        self.0.strip_suffix("</text>")?.rsplit('>').next()
    }

    /// Shape and middle of a mark.
    fn mark(&self) -> Option<(&'static str, f64, f64)> {
        let (cx, cy) = (self.number("cx"), self.number("cy"));
        match self.0.split_once(' ')?.0 {
            "<circle" if self.word("stroke").is_some() => Some(("ring", cx, cy)),
            "<circle" => Some(("disc", cx, cy)),
            "<rect" => {
                let half = self.number("width") / 2.0;
                Some(("square", self.number("x") + half, self.number("y") + half))
            }
            "<path" => {
                let parts = self.word("d")?.split(['M', 'L', ' ']);
                let at: Vec<f64> = parts.filter_map(|part| part.parse().ok()).collect();
                Some(("cross", (at[0] + at[2]) / 2.0, (at[1] + at[3]) / 2.0))
            }
            _ => None,
        }
    }
}

struct Rectangle {
    left: f64,
    top: f64,
    right: f64,
    bottom: f64,
    fill: String,
}

pub struct Label {
    pub x: f64,
    pub y: f64,
    pub text: String,
}

/// A row of lanes: their names and lines, the edges, and the calls with their places.
#[derive(Default)]
pub struct Row {
    pub lanes: Vec<(String, f64)>,
    pub edges: (f64, f64),
    pub calls: Vec<(Call, f64)>,
}

impl Row {
    fn lane(&self, y: f64) -> &str {
        let near = |lane: &&(String, f64)| (lane.1 - y).abs() < 0.2;
        &self.lanes.iter().find(near).expect("a lane").0
    }

    /// The width of a column.
    pub fn width(&self) -> f64 {
        (self.edges.1 - self.edges.0) / self.calls.len().max(1) as f64
    }
}

#[derive(Default)]
pub struct Picture {
    pub height: f64,
    /// Where the legend begins.
    pub legend: f64,
    pub rows: Vec<Row>,
    /// The titles of the runs.
    pub titles: Vec<String>,
    /// The small labels: of operations, cells and calls.
    pub labels: Vec<Label>,
    rectangles: Vec<Rectangle>,
    /// The first of the two marks of a step, on its task's lane.
    first_mark: Option<(usize, &'static str, f64)>,
}

impl Picture {
    pub fn of(text: &str) -> Picture {
        let mut picture = Picture::default();
        for element in text.lines().map(Element) {
            picture.take(&element);
        }
        picture
    }

    fn take(&mut self, element: &Element) {
        if element.0.starts_with("<svg") {
            self.height = element.number("height");
        } else if element.0.contains("<title>task ") {
            self.take_mark(element);
        } else if element.0.contains("<title>reads<") {
            self.legend = element.number("cy");
        } else if element.0.starts_with("<rect x=") {
            self.take_rectangle(element);
        } else if element.0.starts_with("<line") {
            self.take_line(element);
        } else if let Some(text) = element.text() {
            self.take_text(element, text);
        }
    }

    fn row(&mut self) -> &mut Row {
        self.rows.last_mut().expect("a row")
    }

    fn take_rectangle(&mut self, element: &Element) {
        let (left, top) = (element.number("x"), element.number("y"));
        let (right, bottom) = (left + element.number("width"), top + element.number("height"));
        let fill = element.word("fill").expect("a colour").to_string();
        self.rectangles.push(Rectangle {
            left,
            top,
            right,
            bottom,
            fill,
        });
    }

    /// The line of a lane, or the mark of a begin.
    fn take_line(&mut self, element: &Element) {
        match element.word("stroke") {
            Some("#cccccc") => self.row().edges = (element.number("x1"), element.number("x2")),
            Some("#555") => {
                let (x, y) = (
                    element.number("x1"),
                    (element.number("y1") + element.number("y2")) / 2.0,
                );
                let row = self.row();
                let task = task_of(row.lane(y));
                row.calls.push((Call { task, step: None }, x));
            }
            _ => {}
        }
    }

    /// The name of a lane, or a small label.
    fn take_text(&mut self, element: &Element, text: &str) {
        let (x, y) = (element.number("x"), element.number("y"));
        if element.word("text-anchor") == Some("end") {
            if text == "task 0" {
                self.rows.push(Row::default());
            }
            self.row().lanes.push((text.into(), y - 4.0));
        } else if element.word("font-size") == Some("13") {
            self.titles.push(text.into());
        } else if element.word("font-size") == Some("9") {
            self.labels.push(Label {
                x,
                y,
                text: text.into(),
            });
        }
    }

    fn take_mark(&mut self, element: &Element) {
        let (shape, x, y) = element.mark().expect("a mark");
        let first = self.first_mark.take();
        let row = self.row();
        let lane = row.lane(y).to_string();
        match first {
            None => self.first_mark = Some((task_of(&lane), shape, x)),
            Some((task, same, before)) => {
                assert!(shape == same && (x - before).abs() < 0.2);
                row.calls.push((
                    Call {
                        task,
                        step: Some((cell_of(&lane), shape)),
                    },
                    x,
                ));
            }
        }
    }

    /// The colour on top at a place, of some colours.
    pub fn colour(&self, x: f64, y: f64, of: &[&str]) -> Option<&str> {
        let covers = |one: &&Rectangle| {
            one.left <= x
                && x <= one.right
                && one.top <= y
                && y <= one.bottom
                && of.contains(&one.fill.as_str())
        };
        self.rectangles
            .iter()
            .rev()
            .find(covers)
            .map(|one| one.fill.as_str())
    }

    /// The small label that begins at a place.
    pub fn label(&self, x: f64, y: f64) -> Option<&str> {
        let near = |label: &&Label| (label.x - x).abs() < 0.2 && (label.y - y).abs() < 0.2;
        self.labels.iter().find(near).map(|label| label.text.as_str())
    }
}

fn task_of(lane: &str) -> usize {
    lane.strip_prefix("task ")
        .expect("a task's lane")
        .parse()
        .expect("a number")
}

fn cell_of(lane: &str) -> usize {
    match lane.strip_prefix("announcement ") {
        Some(task) => task.parse::<usize>().expect("a number") + 1,
        None => 0,
    }
}
