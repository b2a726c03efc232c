//! How the questions grow with the size of the input, ours and the reference's, as a picture with two logarithmic axes.

use super::plain::plain;
use super::port::ours;
use super::shapes::{
    Question, arrays, empty_records, layers, merged, overlapping, strides, wrappers,
};
use crate::chart::{Chart, Point};

/// A shape, its sizes in the picture, and the question of a size.
struct Shape {
    name: &'static str,
    colour: &'static str,
    sizes: &'static [u32],
    question: fn(u32) -> Question,
}

const SHAPES: [Shape; 7] = [
    Shape {
        name: "wrappers and maps",
        colour: "#1b6ca8",
        sizes: &[2, 3, 5, 7, 10, 14, 20, 30, 50, 100, 180, 250],
        question: |k| wrappers(k, k),
    },
    Shape {
        name: "nested arrays",
        colour: "#b5482a",
        sizes: &[2, 3, 5, 8, 12, 18, 24, 40, 70, 120, 200],
        question: arrays,
    },
    Shape {
        name: "the first, merged",
        colour: "#3a7d44",
        sizes: &[2, 3, 5, 7, 9, 13, 20, 30, 50, 100],
        question: |k| merged(k, k),
    },
    Shape {
        name: "layers of size 0",
        colour: "#7a4fa3",
        sizes: &[1, 2, 3, 4, 5, 6, 7, 8, 10, 12, 15],
        question: layers,
    },
    Shape {
        name: "overlapping elements",
        colour: "#c2417c",
        sizes: &[2, 3, 4, 6, 8, 10, 12, 14, 20, 30, 50, 100, 180, 220],
        question: |k| overlapping(k, k),
    },
    Shape {
        name: "strides that differ",
        colour: "#b8860b",
        sizes: &[3, 5, 7, 9, 12, 15, 18, 20],
        question: |k| strides(k, k),
    },
    Shape {
        name: "records of size 0",
        colour: "#5f6b75",
        sizes: &[2, 3, 4, 5, 6, 7, 8, 9, 10, 14, 20, 26, 32, 38, 45],
        question: |k| empty_records(k, k),
    },
];

/// The axes go from 10 to these powers of ten.
const MOST_SIZE: f64 = 5.0;
const MOST_QUESTIONS: f64 = 12.0;

/// The picture.
pub fn picture() -> String {
    let mut chart = frame();
    for shape in &SHAPES {
        let [ours, reference] = points(shape).map(|points| shares(&points));
        chart.curves(shape.colour, &ours, &reference);
    }
    chart.finished()
}

/// Our questions and the reference's, by nodes times types, all as powers of ten.
fn points(shape: &Shape) -> [Vec<Point>; 2] {
    let mut both = [Vec::new(), Vec::new()];
    for &size in shape.sizes {
        let question = (shape.question)(size);
        let across = ((question.nodes() * question.types()) as f64).log10();
        let Question { table, ty, at, usage } = &question;
        let asked = ours(table, *ty, *at, usage, u64::MAX).map(|asked| asked.questions as f64);
        let called = plain(table, *ty, *at, usage, usize::MAX).map(|counted| counted.calls);
        for (points, number) in both.iter_mut().zip([asked, called]) {
            points.extend(number.map(|number| [across, number.log10()]));
        }
    }
    both
}

/// The shares of the axes, up to the upper edge.
fn shares(points: &[Point]) -> Vec<Point> {
    let shares = |[size, questions]: Point| [across(size), up(questions)];
    cut(points).into_iter().map(shares).collect()
}

fn across(size: f64) -> f64 {
    (size - 1.0) / (MOST_SIZE - 1.0)
}

fn up(questions: f64) -> f64 {
    (questions - 1.0) / (MOST_QUESTIONS - 1.0)
}

/// The points up to the upper edge, and where the edge is crossed.
fn cut(points: &[Point]) -> Vec<Point> {
    let below = points.iter().take_while(|point| point[1] <= MOST_QUESTIONS).count();
    let mut cut = points[..below].to_vec();
    if let (Some(&[x, y]), Some(&[next_x, next_y])) = (cut.last(), points.get(below)) {
        let share = (MOST_QUESTIONS - y) / (next_y - y);
        cut.push([x + share * (next_x - x), MOST_QUESTIONS]);
    }
    cut
}

fn frame() -> Chart {
    let mut chart = Chart::new("Questions of the layout test by size", [760.0, 460.0], 200.0);
    for power in 1..=MOST_SIZE as i32 {
        chart.mark_across(across(f64::from(power)), &words(power));
    }
    for power in 1..=MOST_QUESTIONS as i32 {
        chart.mark_up(up(f64::from(power)), &words(power));
    }
    chart.name_across("nodes × types");
    chart.name_up("questions");
    chart.name_curves(SHAPES.iter().map(|shape| (shape.name, shape.colour)));
    chart
}

/// A power of ten, with the small ones written out.
fn words(power: i32) -> String {
    match power {
        1..=3 => 10u32.pow(power as u32).to_string(),
        _ => format!("10<tspan dy=\"-4\" font-size=\"9\">{power}</tspan>"),
    }
}

#[cfg(test)]
mod tests {
    use super::cut;

    #[test]
    fn a_curve_ends_at_the_upper_edge() {
        assert_eq!(
            cut(&[[1.0, 2.0], [2.0, 10.0], [3.0, 14.0]]),
            [[1.0, 2.0], [2.0, 10.0], [2.5, 12.0]]
        );
        assert_eq!(cut(&[[1.0, 2.0], [2.0, 3.0]]), [[1.0, 2.0], [2.0, 3.0]]);
    }
}
