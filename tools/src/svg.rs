//! A drawing, element by element.

use std::fmt::Write;

const FONT: &str = "font-family='DejaVu Sans, Verdana, sans-serif'";

/// Where a text stands to its place.
#[derive(Clone, Copy)]
pub enum Anchor {
    Start,
    Middle,
    End,
}

/// The elements of a drawing, in the order in which they cover each other.
#[derive(Default)]
pub struct Drawing {
    elements: String,
}

impl Drawing {
    fn push(&mut self, element: std::fmt::Arguments) {
        writeln!(self.elements, "{element}").expect("a string takes every text");
    }

    /// A filled rectangle from its upper left corner.
    pub fn rectangle(&mut self, (x, y): (f64, f64), (width, height): (f64, f64), fill: &str) {
        self.push(format_args!(
            "<rect x='{x:.1}' y='{y:.1}' width='{width:.1}' height='{height:.1}' fill='{fill}'/>"
        ));
    }

    pub fn line(&mut self, (x1, y1): (f64, f64), (x2, y2): (f64, f64), colour: &str, width: f64) {
        self.push(format_args!(
            "<line x1='{x1:.1}' y1='{y1:.1}' x2='{x2:.1}' y2='{y2:.1}' stroke='{colour}' stroke-width='{width:.1}'/>"
        ));
    }

    /// A filled circle, with a text that a viewer shows on it.
    pub fn disc(&mut self, (x, y): (f64, f64), radius: f64, colour: &str, title: &str) {
        let title = escaped(title);
        self.push(format_args!(
            "<circle cx='{x:.1}' cy='{y:.1}' r='{radius:.1}' fill='{colour}'><title>{title}</title></circle>"
        ));
    }

    pub fn ring(&mut self, (x, y): (f64, f64), radius: f64, colour: &str, title: &str) {
        let title = escaped(title);
        self.push(format_args!(
            "<circle cx='{x:.1}' cy='{y:.1}' r='{radius:.1}' fill='white' stroke='{colour}'><title>{title}</title></circle>"
        ));
    }

    pub fn square(&mut self, (x, y): (f64, f64), radius: f64, colour: &str, title: &str) {
        let (left, top, side, title) = (x - radius, y - radius, 2.0 * radius, escaped(title));
        self.push(format_args!(
            "<rect x='{left:.1}' y='{top:.1}' width='{side:.1}' height='{side:.1}' fill='{colour}'><title>{title}</title></rect>"
        ));
    }

    /// Two strokes that cross.
    pub fn cross(&mut self, (x, y): (f64, f64), radius: f64, colour: &str, title: &str) {
        let (left, top, right, bottom) = (x - radius, y - radius, x + radius, y + radius);
        let title = escaped(title);
        self.push(format_args!(
            "<path d='M{left:.1} {top:.1}L{right:.1} {bottom:.1}M{left:.1} {bottom:.1}L{right:.1} {top:.1}' \
             stroke='{colour}' stroke-width='1.8'><title>{title}</title></path>"
        ));
    }

    /// A line through points.
    pub fn trace(&mut self, points: &[(f64, f64)], colour: &str) {
        let points: Vec<String> = points.iter().map(|(x, y)| format!("{x:.1},{y:.1}")).collect();
        let points = points.join(" ");
        self.push(format_args!(
            "<polyline points='{points}' fill='none' stroke='{colour}' stroke-width='2'/>"
        ));
    }

    pub fn text(&mut self, (x, y): (f64, f64), size: f64, anchor: Anchor, text: &str) {
        let text = escaped(text);
        let anchor = match anchor {
            Anchor::Start => "start",
            Anchor::Middle => "middle",
            Anchor::End => "end",
        };
        self.push(format_args!(
            "<text x='{x:.1}' y='{y:.1}' font-size='{size:.0}' text-anchor='{anchor}' fill='#222'>{text}</text>"
        ));
    }

    /// The file of the drawing, on white.
    pub fn file(&self, width: f64, height: f64) -> String {
        format!(
            "<svg xmlns='http://www.w3.org/2000/svg' width='{width:.0}' height='{height:.0}' \
             viewBox='0 0 {width:.0} {height:.0}' {FONT}>\n<rect width='100%' height='100%' fill='white'/>\n{}</svg>\n",
            self.elements
        )
    }
}

/// About how wide a text of this size is.
pub fn width_of(text: &str, size: f64) -> f64 {
    text.chars().count() as f64 * size * 0.6
}

fn escaped(text: &str) -> String {
    text.replace('&', "&amp;")
        .replace('<', "&lt;")
        .replace('>', "&gt;")
}
