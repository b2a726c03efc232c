//! `usage-merge`: merges usages written in the notation, and shows what comes of it.

#![forbid(unsafe_code)]

mod arguments;
mod ask;
mod lookup;
mod picture;
mod sheet;
mod show;

use arguments::{Arguments, HELP};
use ask::Question;
use std::io::{self, Write};
use std::process::ExitCode;
use std::{env, fs};
use usage_merger::{Choices, Error, Lookup, Ties};

/// Why there is nothing to show: what to say, and the exit status.
struct Failure {
    status: u8,
    words: String,
}

/// The command line is wrong.
const MISUSED: u8 = 2;
/// The library refused, or a file could not be written.
const REFUSED: u8 = 1;

/// The most bytes that the program `merge` reads.
const LONGEST_FRAME: usize = 65_536;

fn main() -> ExitCode {
    let shown = run().and_then(|bytes| {
        let mut output = io::stdout().lock();
        let written = output.write_all(&bytes).and_then(|()| output.flush());
        written.map_err(|error| Failure::refused(format!("standard output: {error}")))
    });
    match shown {
        Ok(()) => ExitCode::SUCCESS,
        Err(Failure { status, words }) => {
            // Where this cannot be written either, the status says it.
            let _ = writeln!(io::stderr(), "usage-merge: {words}");
            ExitCode::from(status)
        }
    }
}

impl Failure {
    fn misused(words: impl Into<String>) -> Failure {
        Failure { status: MISUSED, words: words.into() }
    }

    fn refused(words: impl Into<String>) -> Failure {
        Failure { status: REFUSED, words: words.into() }
    }
}

/// All that goes to standard output.
fn run() -> Result<Vec<u8>, Failure> {
    let Some(arguments) = Arguments::read(env::args_os().skip(1))? else {
        return Ok(HELP.into());
    };
    let Arguments { question, frame: wants_frame, svg } = arguments;
    if wants_frame {
        return match svg {
            None => frame(&question),
            Some(_) => Err(Failure::misused("--frame goes without --svg: it shows nothing else")),
        };
    }
    let asked = question.ask();
    let picture = || picture::draw(&question, asked.as_ref().map_err(|error| *error));
    if let Some(path) = svg
        && let Some(picture) = picture()
    {
        let written = fs::write(&path, picture);
        written.map_err(|error| Failure::refused(format!("{}: {error}", path.display())))?;
    }
    match asked {
        Ok(answer) => Ok(show::answer(&question, &answer).into_bytes()),
        Err(error) => Err(Failure::refused(show::error(&question, error))),
    }
}

/// The three blocks that the program `merge` reads: table, first, second, each after its length.
fn frame(question: &Question) -> Result<Vec<u8>, Failure> {
    let [first, second] = &question.usages[..] else {
        return Err(Failure::misused("--frame takes two usages: the program merges two"));
    };
    if question.at.is_some() {
        return Err(Failure::misused("--frame goes without --at: the program merges"));
    }
    if question.choices != Choices::default() {
        let chosen = options(question.choices).join(" and ");
        return Err(Failure::misused(format!(
            "--frame goes without {chosen}: the program has no choices"
        )));
    }
    let mut bytes = Vec::new();
    let failed = |error| Failure::refused(Error::Value(error).to_string());
    for block in [question.table.to_bytes(), first.to_bytes(), second.to_bytes()] {
        let block = block.map_err(failed)?;
        let length = u32::try_from(block.len()).unwrap_or(u32::MAX);
        bytes.extend(length.to_le_bytes());
        bytes.extend(block);
    }
    if bytes.len() > LONGEST_FRAME {
        let length = bytes.len();
        return Err(Failure::refused(format!(
            "the frame has {length} bytes, and the program reads at most {LONGEST_FRAME}"
        )));
    }
    Ok(bytes)
}

/// The options for what is not as in the source.
fn options(choices: Choices) -> Vec<&'static str> {
    let ties = (choices.ties == Ties::First).then_some("--ties first");
    let lookup = (choices.lookup == Lookup::Strict).then_some("--lookup strict");
    ties.into_iter().chain(lookup).collect()
}
