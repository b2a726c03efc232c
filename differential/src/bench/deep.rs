//! Streams far deeper than the reference could read: how long it takes until they are refused.

use super::runs::least_within;
use super::sound;
use crate::library::time;
use crate::questions::figures::number;
use crate::reading::streams::{ARRAY, MAP, MEMORY, UNUSED};
use std::time::Duration;

/// How long a stream is read anew, in search of the least time.
const LIMIT: Duration = Duration::from_secs(1);

/// A nest: its name, and the bytes of each level before and behind what is inside.
#[derive(Clone, Copy)]
struct Nest {
    name: &'static str,
    open: &'static [u8],
    close: &'static [u8],
}

const ARRAYS: Nest =
    Nest { name: "nested arrays", open: &[ARRAY, 1, 4, 0, 0, 0, 4, 0, 0, 0], close: &[] };

const MAPS_OF_ONE: Nest =
    Nest { name: "nested maps of one", open: &[MAP, 1, 4, 0, 0, 0, 1, 0, 0, 0, 0, 0], close: &[] };

/// The deep entry first, and behind it a second one.
const MAPS_OF_TWO: Nest = Nest {
    name: "nested maps of two",
    open: &[MAP, 1, 4, 0, 0, 0, 2, 0, 0, 0, 0, 0],
    close: &[1, 0, 0, 0, UNUSED, 1, 4, 0, 0, 0],
};

/// The levels of about ten million bytes of maps of two.
const TEN_MILLION_BYTES: usize = 454_545;

/// The lines of a table in Markdown, each made when it is asked for.
pub fn lines() -> impl Iterator<Item = String> {
    let head = ["| stream | levels | bytes | time | for each byte |", "|---|---|---|---|---|"];
    let whole_and_damaged = [(ARRAYS, 1_000_000), (MAPS_OF_ONE, 20_000), (MAPS_OF_TWO, 20_000)]
        .into_iter()
        .flat_map(|(nest, levels)| nest.whole_and_damaged(levels));
    let whole = [6_000, 24_000, TEN_MILLION_BYTES]
        .into_iter()
        .map(|levels| MAPS_OF_TWO.line(levels, "whole", MAPS_OF_TWO.stream(levels)));
    head.map(str::to_owned).into_iter().chain(whole_and_damaged).chain(whole)
}

impl Nest {
    fn whole_and_damaged(self, levels: usize) -> impl Iterator<Item = String> {
        let whole = self.stream(levels);
        let short = whole[..whole.len() - 1].to_vec();
        let long = [&whole[..], &[0]].concat();
        [("whole", whole), ("cut short", short), ("a byte left over", long)]
            .into_iter()
            .map(move |(how, stream)| self.line(levels, how, stream))
    }

    fn line(self, levels: usize, how: &str, stream: Vec<u8>) -> String {
        let (words, bytes) = (number(levels as f64), stream.len());
        let call = sound(stream);
        let taken = least_within(LIMIT, || time(&call, 1, 0));
        let each = taken.as_nanos() as f64 / bytes as f64;
        let name = self.name;
        format!("| {words} {name}, {how} | {levels} | {bytes} | {taken:.1?} | {each:.2} ns |")
    }

    fn stream(self, levels: usize) -> Vec<u8> {
        let inside = [UNUSED, 1, 4, 0, 0, 0];
        [&[MEMORY], &self.open.repeat(levels)[..], &inside, &self.close.repeat(levels)].concat()
    }
}
