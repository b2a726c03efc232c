//! A picture with two axes, ours beside the reference's, as SVG.

use std::fmt::Write;

/// A place in the picture, or shares of its two axes.
pub type Point = [f64; 2];

const LEFT: f64 = 70.0;
const TOP: f64 = 30.0;
const BOTTOM: f64 = 50.0;

/// A picture as far as it is drawn.
pub struct Chart {
    svg: String,
    height: f64,
    /// Where the axis across ends. The names of the curves stand beyond.
    right: f64,
}

impl Chart {
    /// An empty picture of this width and height, with so much room for the names of the curves.
    pub fn new(title: &str, [width, height]: [f64; 2], names: f64) -> Chart {
        let svg = format!(
            "<svg xmlns=\"http://www.w3.org/2000/svg\" viewBox=\"0 0 {width} {height}\" font-family=\"sans-serif\" font-size=\"12\">\n\
             <title>{title}</title>\n<rect width=\"{width}\" height=\"{height}\" fill=\"white\"/>\n"
        );
        Chart { svg, height, right: width - names }
    }

    /// The whole picture.
    pub fn finished(mut self) -> String {
        self.svg.push_str("</svg>\n");
        self.svg
    }

    /// A mark of the axis across, at this share of it.
    pub fn mark_across(&mut self, share: f64, words: &str) {
        let [x, bottom] = self.place([share, 0.0]);
        self.line([x, TOP], [x, bottom]);
        self.label([x, bottom + 16.0], "middle", words);
    }

    /// A mark of the axis upwards.
    pub fn mark_up(&mut self, share: f64, words: &str) {
        let [_, y] = self.place([0.0, share]);
        self.line([LEFT, y], [self.right, y]);
        self.label([LEFT - 6.0, y + 4.0], "end", words);
    }

    /// What the axis across shows.
    pub fn name_across(&mut self, words: &str) {
        self.label([f64::midpoint(LEFT, self.right), self.height - 12.0], "middle", words);
    }

    /// What the axis upwards shows.
    pub fn name_up(&mut self, words: &str) {
        self.label([LEFT, TOP - 10.0], "middle", words);
    }

    /// The names of the curves in their colours, and which are ours.
    pub fn name_curves<'a>(&mut self, names: impl Iterator<Item = (&'a str, &'a str)>) {
        let mut y = TOP + 20.0;
        for (name, colour) in names {
            self.note(y, name, colour);
            y += 20.0;
        }
        self.note(y + 20.0, "whole: this library", "black");
        self.note(y + 38.0, "dashed: the reference", "black");
    }

    /// Our curve and the reference's, through these shares of the axes.
    pub fn curves(&mut self, colour: &str, ours: &[Point], reference: &[Point]) {
        self.curve(colour, ours, "");
        self.curve(colour, reference, " stroke-dasharray=\"5 4\"");
    }

    fn place(&self, [across, up]: Point) -> Point {
        [
            LEFT + across * (self.right - LEFT),
            self.height - BOTTOM - up * (self.height - TOP - BOTTOM),
        ]
    }

    fn line(&mut self, [x1, y1]: Point, [x2, y2]: Point) {
        let _ = writeln!(
            self.svg,
            "<line x1=\"{x1:.1}\" y1=\"{y1:.1}\" x2=\"{x2:.1}\" y2=\"{y2:.1}\" stroke=\"#ddd\"/>"
        );
    }

    fn label(&mut self, [x, y]: Point, anchor: &str, words: &str) {
        let _ = writeln!(
            self.svg,
            "<text x=\"{x:.1}\" y=\"{y:.1}\" text-anchor=\"{anchor}\">{words}</text>"
        );
    }

    fn note(&mut self, y: f64, words: &str, colour: &str) {
        let x = self.right + 14.0;
        let _ = writeln!(self.svg, "<text x=\"{x:.1}\" y=\"{y}\" fill=\"{colour}\">{words}</text>");
    }

    fn curve(&mut self, colour: &str, shares: &[Point], style: &str) {
        let point = |[x, y]: Point| format!("{x:.1},{y:.1}");
        let points: Vec<String> = shares.iter().map(|at| point(self.place(*at))).collect();
        let _ = writeln!(
            self.svg,
            "<polyline points=\"{}\" fill=\"none\" stroke=\"{colour}\" stroke-width=\"2\"{style}/>",
            points.join(" ")
        );
    }
}
