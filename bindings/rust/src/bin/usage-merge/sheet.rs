//! The sheet that a picture is drawn on: where offsets lie across, boxes, marks and words.

use crate::picture::{Access, DYNAMIC, MOST_SLOTS, Row, Span};
use crate::show::count;
use std::collections::BTreeSet;
use std::fmt::Write;
use std::ops::Range;

const LETTER: f64 = 6.7;
const MARGIN: f64 = 16.0;
const LEVEL: f64 = 22.0;
const AXIS: f64 = 64.0;
const LINE: f64 = 18.0;
/// The longest line of words, in characters.
const LONGEST_LINE: usize = 110;

const STYLE: &str = "\
text{font-family:monospace;font-size:11px;fill:#1a1a1a;stroke:#fff;stroke-width:2px;paint-order:stroke}\
.title{font-size:14px;font-weight:bold}.head{font-size:12px;font-weight:bold}\
.tick{fill:#555}.grid{stroke:#bbb;stroke-width:1;stroke-dasharray:2 3}\
.unused{fill:#fff;stroke:#888;stroke-dasharray:3 2}.leaf{fill:#cfe3f7;stroke:#2b5f93}\
.strict{fill:#d9d2f0;stroke:#5a4699}.map{fill:#eee;stroke:#777}.array{fill:#e3f1df;stroke:#4b7f3c}\
.slot{stroke:#4b7f3c;stroke-dasharray:2 2}.both{fill:url(#both)}.straddle{fill:url(#straddle)}\
.conflict{fill:#a01818}";

const PATTERNS: &str = "\
<defs>\
<pattern id=\"both\" width=\"8\" height=\"8\" patternUnits=\"userSpaceOnUse\">\
<path d=\"M-2 2L2 -2M0 8L8 0M6 10L10 6\" stroke=\"#c98a00\" stroke-width=\"1.5\" opacity=\"0.55\"/></pattern>\
<pattern id=\"straddle\" width=\"8\" height=\"8\" patternUnits=\"userSpaceOnUse\">\
<path d=\"M-2 2L2 -2M0 8L8 0M6 10L10 6M-2 6L2 10M0 0L8 8M6 -2L10 2\" stroke=\"#c01818\" stroke-width=\"1.2\" opacity=\"0.6\"/></pattern>\
</defs>";

/// Where each offset lies across the sheet.
pub struct Sheet {
    offsets: Vec<u64>,
    /// The left edge of each offset; the last is the right end of the dynamic part.
    edges: Vec<f64>,
    top: f64,
}

/// What is drawn, from the back to the front.
#[derive(Default)]
struct Layers {
    lines: String,
    boxes: String,
    marks: String,
    words: String,
}

fn width(text: &str) -> f64 {
    text.chars().count() as f64 * LETTER
}

impl Sheet {
    /// A column from each offset to the next, wide enough for the labels, and one for what is
    /// dynamic.
    pub fn of(rows: &[Row]) -> Sheet {
        let spans = || rows.iter().flat_map(|row| &row.spans);
        let mut offsets = BTreeSet::from([0]);
        for span in spans() {
            offsets.insert(span.start);
            offsets.extend(span.end);
            offsets.extend(&span.slots);
        }
        for access in rows.iter().flat_map(|row| &row.accesses) {
            offsets.insert(access.start);
            offsets.extend(Some(access.end).filter(|end| *end != DYNAMIC));
        }
        let offsets: Vec<u64> = offsets.into_iter().collect();
        let ticks: Vec<f64> = offsets.iter().map(|offset| width(&offset.to_string())).collect();
        let mut widths: Vec<f64> = Vec::new();
        for (index, pair) in offsets.windows(2).enumerate() {
            let room = f64::midpoint(ticks[index], ticks[index + 1]) + 12.0;
            widths.push(room.max((pair[1] - pair[0]).min(12) as f64 * 9.0));
        }
        widths.push(60.0);
        let mut sheet = Sheet { offsets, edges: Vec::new(), top: MARGIN + AXIS };
        for span in spans() {
            let mut columns = sheet.columns(span);
            if columns.is_empty() {
                // The label of an empty node stands beside it.
                columns.end = columns.start.saturating_add(1).min(widths.len());
            }
            let (have, need) =
                (widths[columns.clone()].iter().sum::<f64>(), width(&span.label) + 12.0);
            let each = (need - have) / columns.len().max(1) as f64;
            widths[columns].iter_mut().for_each(|width| *width += each.max(0.0));
        }
        let mut edge = MARGIN + 20.0;
        sheet.edges.push(edge);
        for width in widths {
            edge += width;
            sheet.edges.push(edge);
        }
        sheet
    }

    /// The columns from a span's start to its end.
    fn columns(&self, span: &Span) -> Range<usize> {
        let index = |offset: u64| self.offsets.partition_point(|known| *known < offset);
        index(span.start)..span.end.map_or(self.offsets.len(), index)
    }

    fn edge(&self, index: usize) -> f64 {
        self.edges.get(index).or(self.edges.last()).copied().unwrap_or(MARGIN)
    }

    fn right(&self) -> f64 {
        self.edges.last().copied().unwrap_or(MARGIN)
    }

    /// The whole picture.
    pub fn drawn(&self, rows: &[Row], words: &[String]) -> String {
        let inputs = rows.len().saturating_sub(1);
        let mut layers = Layers::default();
        let mut y = self.top;
        let mut inputs_end = y;
        for (index, row) in rows.iter().enumerate() {
            y = self.row(&mut layers, row, y);
            if index < inputs {
                inputs_end = y;
            }
        }
        self.axis(&mut layers, y);
        let marked = self.overlaps(&mut layers.marks, &rows[..inputs], inputs_end);
        y += 6.0;
        let arrays = rows.iter().flat_map(|row| &row.spans).any(|span| span.class == "array");
        let mut longest = rows.iter().map(|row| width(&cut(&row.head)) * 1.1).fold(0.0, f64::max);
        for line in words.iter().map(|line| cut(line)).chain(legend(marked, arrays)) {
            y += LINE;
            let class = if line.starts_with("conflict") { "conflict" } else { "tick" };
            write_text(&mut layers.words, MARGIN, y, class, &line);
            longest = longest.max(width(&line));
        }
        let wide = (self.right() + MARGIN).max(longest + 2.0 * MARGIN);
        let high = y + MARGIN;
        let Layers { lines, boxes, marks, words } = layers;
        format!(
            "<svg xmlns=\"http://www.w3.org/2000/svg\" width=\"{wide:.0}\" height=\"{high:.0}\" \
             viewBox=\"0 0 {wide:.0} {high:.0}\" role=\"img\">\n<title>Merged usages</title>\n\
             <style>{STYLE}</style>\n{PATTERNS}\n\
             <rect width=\"100%\" height=\"100%\" fill=\"#fff\"/>\n{lines}{boxes}{marks}{words}</svg>\n"
        )
    }

    /// The offsets, with a line down from each.
    fn axis(&self, layers: &mut Layers, bottom: f64) {
        let Layers { lines, words, .. } = layers;
        write_text(words, MARGIN, MARGIN + 8.0, "title", "Memory, by offset in bytes");
        write_text(words, MARGIN, MARGIN + 24.0, "tick", "Widths are not to scale.");
        for (index, offset) in self.offsets.iter().enumerate() {
            let (x, y) = (self.edge(index), self.top - 10.0);
            let label = offset.to_string();
            write_text(words, x - width(&label) / 2.0, y, "tick", &label);
            let _ = writeln!(
                lines,
                "<line class=\"grid\" x1=\"{x:.1}\" y1=\"{:.1}\" x2=\"{x:.1}\" y2=\"{bottom:.1}\"/>",
                y + 4.0
            );
        }
    }

    /// A row's words and boxes; gives back where it ends.
    fn row(&self, layers: &mut Layers, row: &Row, top: f64) -> f64 {
        write_text(&mut layers.words, MARGIN, top + 14.0, "head", &cut(&row.head));
        let boxes = top + 20.0;
        let mut bottom = boxes;
        for span in &row.spans {
            let y = boxes + span.level as f64 * LEVEL;
            self.span(layers, span, y);
            bottom = bottom.max(y + LEVEL);
        }
        bottom + 12.0
    }

    fn span(&self, layers: &mut Layers, span: &Span, y: f64) {
        let Layers { boxes, words, .. } = layers;
        let columns = self.columns(span);
        let (left, mut right) = (self.edge(columns.start), self.edge(columns.end));
        let (class, label, bottom) = (span.class, &span.label, y + LEVEL - 4.0);
        if columns.is_empty() {
            right = left + 4.0;
        }
        // A dynamic node has no right side.
        let close = if span.end.is_some() { "Z" } else { "" };
        let _ = writeln!(
            boxes,
            "<path class=\"{class}\" d=\"M{right:.1} {y:.1}H{left:.1}V{bottom:.1}H{right:.1}{close}\">\
             <title>{}</title></path>",
            escaped(&place(span))
        );
        for slot in span.slots.iter().skip(1) {
            let x = self.edge(self.offsets.partition_point(|known| known < slot));
            let _ = writeln!(
                boxes,
                "<line class=\"slot\" x1=\"{x:.1}\" y1=\"{y:.1}\" x2=\"{x:.1}\" y2=\"{bottom:.1}\"/>"
            );
        }
        let inset = if columns.is_empty() { 7.0 } else { 4.0 };
        write_text(words, left + inset, y + 13.0, "label", label);
    }

    /// Marks the columns that several usages access; gives back whether some are shared, and
    /// whether some straddle.
    fn overlaps(&self, text: &mut String, inputs: &[Row], bottom: f64) -> (bool, bool) {
        let (mut shared, mut straddled) = (false, false);
        for index in 0..self.offsets.len() {
            let here = |access: &&Access| {
                let end = self.offsets.get(index + 1).copied().unwrap_or(DYNAMIC);
                access.start <= self.offsets[index] && end <= access.end
            };
            let covering: Vec<Vec<Access>> = inputs
                .iter()
                .map(|row| row.accesses.iter().filter(here).copied().collect::<Vec<_>>())
                .filter(|accesses| !accesses.is_empty())
                .collect();
            if covering.len() < 2 {
                continue;
            }
            let crossed = straddle(&covering);
            let class = if crossed { "straddle" } else { "both" };
            (shared, straddled) = (shared || !crossed, straddled || crossed);
            let (left, right) = (self.edge(index), self.edge(index + 1));
            let _ = writeln!(
                text,
                "<rect class=\"{class}\" x=\"{left:.1}\" y=\"{:.1}\" width=\"{:.1}\" height=\"{:.1}\"/>",
                self.top,
                right - left,
                bottom - self.top
            );
        }
        (shared, straddled)
    }
}

/// Whether accesses of two usages overlap so that neither holds the other.
fn straddle(covering: &[Vec<Access>]) -> bool {
    let holds = |a: &Access, b: &Access| a.start <= b.start && b.end <= a.end;
    covering.iter().enumerate().any(|(index, ones)| {
        let others = || covering[index + 1..].iter().flatten();
        ones.iter().any(|one| others().any(|other| !holds(one, other) && !holds(other, one)))
    })
}

fn place(span: &Span) -> String {
    match span.end {
        Some(end) => format!("{}: {} to {end}", span.label, span.start),
        None => format!("{}: from {} on", span.label, span.start),
    }
}

/// What the marks and letters mean.
fn legend((shared, straddled): (bool, bool), arrays: bool) -> Vec<String> {
    let mut lines = Vec::new();
    if shared {
        lines.push("striped: bytes that more than one usage accesses".into());
    }
    if straddled {
        lines.push("crossed: accesses overlap there, and neither holds the other".into());
    }
    if !shared && !straddled {
        lines.push("no byte is accessed by more than one usage".into());
    }
    lines.push(
        "U unused, D direct access, S strictly typed (size, type); O map; A array (size, stride)"
            .into(),
    );
    if arrays {
        let slots = count(MOST_SLOTS, "slot");
        lines.push("An array's element is drawn in its first slot.".into());
        lines.push(format!(
            "One that is dynamic, in an array or of over {slots} counts as accessed throughout."
        ));
    }
    lines
}

/// Words that fit a line.
fn cut(words: &str) -> String {
    if words.chars().count() <= LONGEST_LINE {
        return words.into();
    }
    let mut short: String = words.chars().take(LONGEST_LINE - 3).collect();
    short.push_str("...");
    short
}

fn write_text(text: &mut String, x: f64, y: f64, class: &str, words: &str) {
    let words = escaped(words);
    let _ = writeln!(text, "<text class=\"{class}\" x=\"{x:.1}\" y=\"{y:.1}\">{words}</text>");
}

fn escaped(words: &str) -> String {
    words.replace('&', "&amp;").replace('<', "&lt;").replace('>', "&gt;").replace('"', "&quot;")
}
