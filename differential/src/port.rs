//! The commands that need the port.

use crate::Ended;
use differential::questions::figures;
use differential::{bench, growth, plot, stack};
use std::fs;

/// Runs one of them, if these words are one.
pub fn run(words: &[&str]) -> Option<Ended> {
    Some(match words {
        ["bench"] => ratios(),
        ["deep"] => deep_table(),
        ["growth"] => growth_table(),
        ["plot", path] => plot_growth(path),
        ["stack"] => stack_table(),
        ["questions"] => questions_table(),
        ["slow"] => slow_table(),
        // what `growth` and `stack` make processes of
        ["calls-of", shape, nodes, times] => growth::run(shape, nodes, times),
        ["stack-of", name, kib] => stack::run(name, kib),
        _ => return None,
    })
}

fn ratios() -> Ended {
    println!("{}\n", bench::ratios());
    println!("{}", bench::tie_rules());
    Ok(format!("bench: the least of {} runs on each side", bench::RUNS_OF_RATIOS))
}

fn deep_table() -> Ended {
    bench::deep::lines().for_each(|line| println!("{line}"));
    Ok(format!("deep: the least of {} runs, or of those that a second has", bench::RUNS))
}

fn growth_table() -> Ended {
    let (table, past) = growth::table()?;
    println!("{table}");
    match past.as_slice() {
        [] => Ok("growth: at most 5 times for 4 times the nodes".into()),
        past => Err(format!("more than 5 times for 4 times the nodes: {}", past.join("; "))),
    }
}

fn stack_table() -> Ended {
    let (table, most) = stack::table()?;
    println!("{table}");
    Ok(format!("stack: {most} KiB suffice for all of them, in steps of 8 KiB"))
}

fn plot_growth(path: &str) -> Ended {
    let (picture, table) = plot::growth();
    fs::write(path, picture).map_err(|error| format!("{path}: {error}"))?;
    println!("{table}");
    Ok(format!("plot: {path}"))
}

fn questions_table() -> Ended {
    println!("{}", figures::table()?);
    Ok("questions: none of the four shapes takes more than it may".into())
}

fn slow_table() -> Ended {
    println!("{}", figures::slow());
    Ok("slow: one call each".into())
}
