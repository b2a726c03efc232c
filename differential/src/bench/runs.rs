//! How a figure is taken: many short runs, the two sides in turns in one process, each time with the work area and the stack in another
//! place, and the least of each side counts.
//!
//! One object that is linked twice was seen to differ by half on one input, by where its work area and its stack lay; and what else
//! the machine does only ever adds to a time.

use crate::generate::Rng;
use std::hash::{BuildHasher, Hasher, RandomState};
use std::hint::black_box;
use std::time::{Duration, Instant};

/// The runs of one figure.
pub const RUNS: usize = 51;

/// The work area starts at one of these many places, so many bytes apart: anywhere in a page.
const PLACES: usize = 256;
const APART: usize = 16;

/// At most so many frames lie below a run: together more than a page.
const FRAMES: usize = 32;

/// Microseconds of one call: ours, the reference's from bytes to bytes, and those of the reference's function alone.
#[derive(Clone, Copy)]
pub struct Times {
    pub ours: f64,
    pub reference: f64,
    pub alone: Option<f64>,
}

impl Times {
    /// The least of both, side by side.
    pub fn least(self, other: Times) -> Times {
        Times {
            ours: self.ours.min(other.ours),
            reference: self.reference.min(other.reference),
            alone: self.alone.zip(other.alone).map(|(one, two)| one.min(two)),
        }
    }
}

/// The least of runs that take turns, each of so many calls. Ours is told where in its buffer the work area starts; the reference's two
/// are the whole, and its function alone if that is timed.
pub fn side_by_side(
    times: u32,
    ours: impl Fn(usize) -> Duration,
    reference: impl Fn() -> [Duration; 2],
) -> Times {
    let ours = |start| [ours(start), Duration::ZERO];
    let [[ours, _], [reference, alone]] = in_turns(times, [&ours, &|_| reference()]);
    Times { ours, reference, alone: (alone > 0.0).then_some(alone) }
}

/// What a side's run takes, as one or two figures. It is told where in its buffer the work area starts.
type Run<'a> = &'a dyn Fn(usize) -> [Duration; 2];

/// The least of each side's runs, which take turns, as microseconds of one of so many calls.
pub fn in_turns(times: u32, sides: [Run<'_>; 2]) -> [[f64; 2]; 2] {
    let mut places = Rng::new(RandomState::new().build_hasher().finish());
    let mut least = [[Duration::MAX; 2]; 2];
    for _ in 0..RUNS {
        let (start, frames) = (APART * places.below(PLACES), places.below(FRAMES));
        for (least, side) in least.iter_mut().zip(sides) {
            let [one, other] = deeper(frames, &|| side(start));
            *least = [least[0].min(one), least[1].min(other)];
        }
    }
    let microseconds = |run: Duration| run.as_secs_f64() * 1e6 / f64::from(times);
    least.map(|runs| runs.map(microseconds))
}

/// Runs something with so many frames more on the stack.
#[inline(never)]
fn deeper<T>(frames: usize, run: &dyn Fn() -> T) -> T {
    let frame = black_box([0_u8; 96]);
    let told = if frames == 0 { run() } else { deeper(frames - 1, run) };
    black_box(frame);
    told
}

/// The least of as many runs as a figure has, or of those that are begun within so long a time, but one at least.
pub fn least_within(limit: Duration, run: impl Fn() -> Duration) -> Duration {
    let begun = Instant::now();
    let mut least = run();
    for _ in 1..RUNS {
        if begun.elapsed() > limit {
            break;
        }
        least = least.min(run());
    }
    least
}
