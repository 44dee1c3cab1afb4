//! What the drawings of runs say: every step with its title, what marks and colours mean, names, and titles of runs. Where
//! things stand in a drawing is compared in `timeline`.

use crate::program::{drive, drive_on};
use reference::script_cases::random_script;
use reference::trace::trace;

const RANDOM_SCRIPTS: u64 = 300;

const TABLE: &str = "../crates/bench/data/table.bin";
const FLAG_RUN: &str = "../crates/bench/stdin";
const STOPPED_RUN: &str = "examples/stopped.lines";

/// The width of a letter of the legend, about.
const LEGEND_LETTER: f64 = 6.2;

/// What a step does by its line, the access or the beginning of the phase's name, with its colour and its name.
const LOOKS: [(&str, &str, &str); 9] = [
    (", not 0", "#d62728", "a swap that fails"),
    ("  read ", "#888888", "reads"),
    ("  Announce", "#ff7f0e", "announces its operation"),
    ("  Link", "#1f77b4", "links a cell"),
    ("  Apply", "#2ca02c", "applies an operation"),
    ("  HandOver", "#9467bd", "hands a response over"),
    ("  Clear", "#8c564b", "clears the head"),
    ("  Release", "#17becf", "releases a link"),
    ("  Retract", "#222222", "empties its announcement"),
];

/// What the colours of bars, bands and stretches mean.
const FILLS: [(&str, &str); 8] = [
    ("#d9f2d9", "point of rest"),
    ("#d8e4f2", "reading operation"),
    ("#fbe3c2", "changing operation"),
    ("#f2b872", "changing, state moved"),
    ("#f7f0e6", "pending, no further call"),
    ("#ffd9a8", "operation announced"),
    ("#cdb9e3", "response, state not moved"),
    ("#b093d6", "response, state moved"),
];

/// The lines of steps in the second program's trace.
fn steps(table: &[u8], lines: &[u8]) -> Vec<String> {
    let trace = trace(table, lines).unwrap_or_default();
    let steps = trace
        .lines()
        .filter(|line| line.starts_with("  task ") && line.contains("  step "));
    steps.map(|line| line[2..].to_string()).collect()
}

/// The colour and the title of every mark, in the order in which they are drawn.
fn marks(picture: &str) -> Vec<(String, String)> {
    let marks = picture
        .lines()
        .filter_map(|line| line.split_once("<title>").map(|(mark, title)| (mark, title)));
    let colour = |mark: &str| {
        let at = mark.rfind("='#").expect("a colour");
        mark[at + 2..at + 9].to_string()
    };
    let title = |title: &str| {
        title
            .split("</title>")
            .next()
            .expect("an end")
            .replace("&gt;", ">")
    };
    marks.map(|(mark, text)| (colour(mark), title(text))).collect()
}

/// Each element is closed, and no other.
fn well_formed(picture: &str) {
    let mut open = Vec::new();
    for tag in picture.split('<').skip(1) {
        let (tag, _) = tag.split_once('>').expect("a tag ends");
        let name = tag
            .trim_end_matches('/')
            .split([' ', '\n'])
            .next()
            .expect("a name");
        match tag.strip_prefix('/') {
            Some(closed) => assert_eq!(open.pop(), Some(closed)),
            None if tag.ends_with('/') => {}
            None => open.push(name),
        }
    }
    assert!(open.is_empty());
}

#[test]
fn every_step_has_two_marks_with_its_colour_and_its_line() {
    let mut seen = [false; 9];
    for script in (0..RANDOM_SCRIPTS).map(random_script) {
        let table = script.table.unwrap_or_default();
        let steps = steps(&table, &script.input);
        if steps.is_empty() {
            continue;
        }
        let picture = drive_on("picture", &table, &script.input).text();
        well_formed(&picture);
        let expected = steps.iter().flat_map(|step| {
            let look = LOOKS
                .iter()
                .position(|(part, _, _)| step.contains(part))
                .expect("a look");
            seen[look] = true;
            let mark = (LOOKS[look].1.to_string(), step.clone());
            [mark.clone(), mark]
        });
        let expected: Vec<(String, String)> = expected.collect();
        assert!(marks(&picture)[..expected.len()] == expected, "{}", script.name);
        assert_eq!(marks(&picture).len(), expected.len() + LOOKS.len());
    }
    assert_eq!(seen, [true; 9]);
}

/// The places of a mark, of a coloured square and of a text: from the left, from the top.
fn place(line: &str, x: &str, y: &str) -> Option<(f64, f64)> {
    let number = |name: &str| line.split_once(name)?.1.split('\'').next()?.parse::<f64>().ok();
    number(x).zip(number(y))
}

/// The text that stands right of a place in the legend.
fn named_at(picture: &str, (x, y): (f64, f64)) -> Option<&str> {
    let texts = picture.lines().filter(|line| line.contains("font-size='11'"));
    let beside = |line: &&str| {
        place(line, " x='", " y='")
            .is_some_and(|(left, top)| (5.0..20.0).contains(&(left - x)) && (top - y).abs() < 16.0)
    };
    let mut near: Vec<&str> = texts.filter(beside).collect();
    near.sort_by_key(|line| place(line, " x='", " y='").map_or(0, |(_, top)| (top - y - 4.0).abs() as i64));
    near.first()?.split_once('>')?.1.strip_suffix("</text>")
}

#[test]
fn the_legend_names_every_mark_and_colour() {
    let picture = drive(&["picture", TABLE, FLAG_RUN], b"").text();
    let marks = marks(&picture);
    for (_, colour, name) in LOOKS {
        assert!(marks.contains(&(colour.to_string(), name.to_string())), "{name}");
    }
    let circles = picture
        .lines()
        .filter(|line| line.starts_with("<circle") && !line.contains("<title>task"));
    for circle in circles {
        let title = circle
            .split("<title>")
            .nth(1)
            .and_then(|rest| rest.split('<').next());
        let middle = place(circle, "cx='", "cy='").expect("a place");
        assert_eq!(named_at(&picture, middle), title);
    }
    for (fill, name) in FILLS {
        let square = format!("width='11.0' height='11.0' fill='{fill}'/>");
        let line = picture
            .lines()
            .find(|line| line.ends_with(&square))
            .expect("a square");
        let (left, top) = place(line, " x='", " y='").expect("a place");
        assert_eq!(named_at(&picture, (left + 5.0, top + 5.0)), Some(name));
    }
}

/// The texts of the legend stand in the picture, and beside each other there is room for a mark between them.
#[test]
fn the_texts_of_the_legend_have_room() {
    let picture = drive(&["picture", TABLE, FLAG_RUN], b"").text();
    let height = place(&picture, " width='", " height='").expect("a size").1;
    let texts = picture.lines().filter(|line| line.contains("font-size='11'"));
    let ends = |line: &str| {
        let (x, y) = place(line, " x='", " y='").expect("a place");
        let text = line
            .strip_suffix("</text>")
            .and_then(|line| line.rsplit('>').next());
        (
            x,
            y,
            x + LEGEND_LETTER * text.expect("a text").chars().count() as f64,
        )
    };
    let texts: Vec<(f64, f64, f64)> = texts.map(ends).collect();
    for (x, y, end) in &texts {
        assert!(y + 5.0 < height);
        let beside = texts.iter().filter(|other| other.1 == *y && other.0 > *x);
        assert!(beside.into_iter().all(|other| end + 15.0 < other.0));
    }
    assert_eq!(texts.len(), LOOKS.len() + FILLS.len() + 1);
}

/// The small labels, in the order in which they are drawn.
fn labels(picture: &str) -> Vec<&str> {
    let labels = picture
        .lines()
        .filter(|line| line.contains("font-size='9'") && line.contains("'start'"));
    labels
        .filter_map(|line| line.strip_suffix("</text>")?.rsplit('>').next())
        .collect()
}

#[test]
fn states_and_operations_go_by_their_names() {
    let named = drive(&["table", "examples/flag.txt"], b"").out;
    let picture = drive(&["picture", "-", FLAG_RUN], &named).text();
    let operations = ["set \u{2192} 0", "read\u{2192}1", "clear \u{2192} 1"];
    let head = ["down", "up", "up", "down", "down"];
    let announcements = ["set", "0", "clear", "1"];
    assert_eq!(
        labels(&picture),
        [&operations[..], &head[..], &announcements[..]].concat()
    );
}

#[test]
fn an_operation_that_never_ends_is_pending() {
    let picture = drive(&["picture", TABLE, STOPPED_RUN], b"").text();
    assert!(labels(&picture).contains(&"operation 1 \u{2192} pending"));
}

#[test]
fn every_run_has_a_title() {
    let picture = drive(&["picture", TABLE, "-"], b"n 1\nb 0 0\ns 0\nx\nn 8\nn 9\nb 9 9\n").text();
    assert!(picture.contains(">Run 1, tasks: 1, accepted calls of begin and step: 2<"));
    assert!(picture.contains(">Run 2, tasks: 8, accepted calls of begin and step: 0<"));
    assert!(!picture.contains(">Run 3"));
}

#[test]
fn without_a_run_there_is_no_picture() {
    for input in ["", "m\n", "n 9\n"] {
        let said = drive(&["picture", TABLE, "-"], input.as_bytes()).failure();
        assert_eq!(said, "drive: no line starts a run: there is nothing to draw\n");
    }
    let said = drive(&["picture", "-", FLAG_RUN], b"").failure();
    assert!(said.starts_with("drive: the table is refused with 1: "), "{said}");
}
