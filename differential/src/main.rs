//! The commands. README.md lists them.

#[cfg(feature = "library")]
mod port;

use differential::compare::{Category, compare, compare_one};
use differential::generate::Source;
use differential::power::{generated, power};
use differential::questions::worst::Among;
use differential::questions::{picture, worst};
use differential::reading::Reading;
use differential::record::{Recorded, check_coverage, from_bytes, recorded, to_bytes};
use differential::reference::Reference;
use differential::rows::{Row, bench, directed, limits, printed_example, with_choices};
use differential::side::{CallKind, Choices, Side, all_choices, choices_numbered};
use differential::theorems::{Theorems, small_calls};
#[cfg(feature = "library")]
use differential::{library::Library, part::Part};
use std::path::Path;
use std::process::ExitCode;
use std::time::{Duration, Instant};
use std::{env, fs, thread};

const USAGE: &str = "\
rows                             all worked rows: document 01, reference and reading agree
compare [options]                generated calls to two sides
  --sides reference,reading      two of reference, reading, library, part
  --calls supports,place,..      which calls (default: all)
  --sources sound,unsound,..     which inputs (default: sound,unsound,large,deep,damaged; with other choices tied,brink, too)
  --choices 0                    with which choices: numbers such as 0,3 (1 ties to the first, 2 strict lookup,
                                 added), or all (the reference has 0 alone)
  --count 10000                  calls in each category (fewer large and deep ones)
  --seed 1
record PATH                      write the recorded answers
check PATH                       derive them anew and compare the file byte for byte
replay PATH SIDE                 put the recorded calls to a side (--calls as above)
theorems DIR                     write recorded and generated calls as theorems about the definitions
  --count 1500                   generated calls in all
  --seed 3
power                            each deliberate fault must be noticed
bench                            how long the port takes, beside the reference (needs the library)
deep                             how long it takes to refuse streams that are far too deep (needs the library)
growth                           how instructions grow with nodes (needs the library and valgrind)
plot PATH                        how time grows with nodes, as a picture (needs the library)
questions                        the layout test's questions, ours and the reference's (needs the library)
slow                             how long it takes where no memory helps (needs the library)
plot-questions PATH              how they grow with the input, as a picture
worst [--seconds 600] [--seed 1] a search for inputs on which the layout test asks most
stack                            how much stack the deepest calls need (needs the library)
ci [PATH]                        all of it, bounded (PATH: the recorded answers)";

/// Where the recorded answers are looked for if no path is given.
const RECORDED: &str = concat!(env!("CARGO_MANIFEST_DIR"), "/../crates/replay/data/answers.bin");

/// Streams may be nested deeper than a usual stack allows, and all readers here recurse.
const STACK: usize = 1 << 30;

/// What times the reference stays in the main thread and starts no other: the allocator locks where there are more, and is slower.
const IN_MAIN_THREAD: [&str; 2] = ["bench", "plot"];

fn main() -> ExitCode {
    let arguments: Vec<String> = env::args().skip(1).collect();
    let timed = arguments.first().is_some_and(|command| IN_MAIN_THREAD.contains(&&**command));
    let ended = if timed { Ok(run(&arguments)) } else { on_large_stack(arguments) };
    match ended {
        Ok(Ok(line)) => {
            println!("{line}");
            ExitCode::SUCCESS
        }
        Ok(Err(words)) => {
            eprintln!("{words}");
            ExitCode::FAILURE
        }
        Err(_) => ExitCode::FAILURE,
    }
}

fn on_large_stack(arguments: Vec<String>) -> thread::Result<Ended> {
    let large = thread::Builder::new().stack_size(STACK);
    large.spawn(move || run(&arguments)).expect("a thread can be started").join()
}

/// What a command ends with: a plain line, or what is wrong.
type Ended = Result<String, String>;

fn run(arguments: &[String]) -> Ended {
    let words: Vec<&str> = arguments.iter().map(String::as_str).collect();
    match words.as_slice() {
        ["rows"] => rows(),
        ["compare", options @ ..] => compare_sides(&Options::read(options)?),
        ["record", path] => record(path),
        ["check", path] => check(path),
        ["replay", path, side, options @ ..] => replay(path, side, &Options::read(options)?),
        ["theorems", folder, options @ ..] => theorems(folder, options),
        ["power"] => check_power(&derived()?),
        ["worst", options @ ..] => search_worst(options),
        ["plot-questions", path] => plot_questions(path),
        ["ci"] => ci(RECORDED),
        ["ci", path] => ci(path),
        #[cfg(feature = "library")]
        of_port => port::run(of_port).unwrap_or_else(|| Err(USAGE.into())),
        #[cfg(not(feature = "library"))]
        ["bench" | "deep" | "growth" | "stack" | "plot" | "questions" | "slow", ..] => {
            Err(NOT_LINKED.into())
        }
        #[cfg(not(feature = "library"))]
        _ => Err(USAGE.into()),
    }
}

#[cfg(not(feature = "library"))]
const NOT_LINKED: &str =
    "the port is not linked: README.md, \"The port\", says how to build with it";

fn plot_questions(path: &str) -> Ended {
    fs::write(path, picture::picture()).map_err(|error| format!("{path}: {error}"))?;
    Ok(format!("plot-questions: {path}"))
}

/// The search for inputs on which the layout test asks most, a third of the time for each kind of input.
fn search_worst(options: &[&str]) -> Ended {
    let (mut seconds, mut seed) = (600, 1);
    for pair in options.chunks(2) {
        match pair {
            ["--seconds", value] => seconds = number(value)? as u64,
            ["--seed", value] => seed = number(value)? as u64,
            _ => return Err(USAGE.into()),
        }
    }
    for among in Among::ALL {
        println!("{}\n", worst::report(among, Duration::from_secs(seconds) / 3, seed));
    }
    Ok(format!("worst: searched for {seconds} s from seed {seed}"))
}

/// The options of a comparison.
struct Options {
    sides: [&'static dyn Side; 2],
    calls: Option<Vec<CallKind>>,
    sources: Option<Vec<Source>>,
    choices: Vec<Choices>,
    count: usize,
    seed: u64,
}

impl Default for Options {
    fn default() -> Self {
        let sides: [&dyn Side; 2] = [&Reference, &READING];
        let choices = vec![Choices::default()];
        Options { sides, calls: None, sources: None, choices, count: 10_000, seed: 1 }
    }
}

const READING: Reading = Reading::FAULTLESS;

impl Options {
    fn read(words: &[&str]) -> Result<Options, String> {
        Options::default().changed_by(words)
    }

    /// These options, but for those that are named.
    fn changed_by(mut self, words: &[&str]) -> Result<Options, String> {
        let mut words = words.iter();
        while let Some(&name) = words.next() {
            let value = *words.next().ok_or_else(|| format!("{name} lacks a value"))?;
            match name {
                "--sides" => {
                    let sides: Vec<_> = value.split(',').map(side).collect::<Result<_, _>>()?;
                    self.sides = sides.try_into().map_err(|_| "two sides are compared")?;
                }
                "--calls" => {
                    self.calls = Some(value.split(',').map(str::parse).collect::<Result<_, _>>()?)
                }
                "--sources" => {
                    self.sources = Some(value.split(',').map(source).collect::<Result<_, _>>()?)
                }
                "--choices" => self.choices = choices(value)?,
                "--count" => self.count = number(value)?,
                "--seed" => self.seed = number(value)? as u64,
                _ => return Err(format!("no option is named {name}\n{USAGE}")),
            }
        }
        Ok(self)
    }

    /// The calls asked for; by default all.
    fn kinds(&self) -> Vec<CallKind> {
        self.calls.clone().unwrap_or_else(|| CallKind::ALL.to_vec())
    }

    /// The same for the part that receiver hands back, if the library is asked for receiver.
    fn of_part(&self) -> Option<Options> {
        let is_library = |side: &dyn Side| side.name() == "library";
        let receiver = CallKind::Receiver;
        let asked = self.kinds().contains(&receiver) && self.sides.into_iter().any(is_library);
        let part = side("part").ok().filter(|_| asked)?;
        let sides = self.sides.map(|side| if is_library(side) { part } else { side });
        let (sources, choices) = (self.sources.clone(), self.choices.clone());
        Some(Options { sides, calls: Some(vec![receiver]), sources, choices, ..*self })
    }

    /// What is compared, in order.
    fn categories(&self) -> Vec<Category> {
        let mut categories = Vec::new();
        for &choices in &self.choices {
            let sources = self.sources.clone().unwrap_or_else(|| Source::of(choices));
            for kind in self.kinds().into_iter().filter(|kind| kind.takes(choices)) {
                let of = |&source| Category { kind, source, choices };
                categories.extend(sources.iter().map(of));
            }
        }
        categories
    }
}

fn side(name: &str) -> Result<&'static dyn Side, String> {
    match name {
        "reference" => Ok(&Reference),
        "reading" => Ok(&READING),
        #[cfg(feature = "library")]
        "library" => Ok(&Library),
        #[cfg(feature = "library")]
        "part" => Ok(&Part),
        #[cfg(not(feature = "library"))]
        "library" | "part" => Err(NOT_LINKED.into()),
        _ => Err(format!("no side is named {name}")),
    }
}

fn source(name: &str) -> Result<Source, String> {
    let found = Source::ALL.into_iter().find(|source| source.to_string() == name);
    found.ok_or_else(|| format!("no source is named {name}"))
}

fn choices(value: &str) -> Result<Vec<Choices>, String> {
    if value == "all" {
        return Ok(all_choices());
    }
    let named = |word: &str| {
        let found = word.parse().ok().and_then(choices_numbered);
        found.ok_or_else(|| format!("no choices have the number {word}"))
    };
    value.split(',').map(named).collect()
}

fn number(word: &str) -> Result<usize, String> {
    word.replace('_', "").parse().map_err(|_| format!("{word} is not a number"))
}

fn rows() -> Ended {
    let rows = [bench(), vec![printed_example()], directed(), limits()].concat();
    let with_choices = with_choices();
    let both: [&dyn Side; 2] = [&Reference, &READING];
    let mut broken: Vec<String> = rows.iter().flat_map(|row| broken_by(row, &both)).collect();
    let differing = rows.iter().filter_map(|row| compare_one(both, &row.call).err());
    broken.extend(differing.map(|difference| difference.to_string()));
    broken.extend(with_choices.iter().flat_map(|row| broken_by(row, &[&READING])));
    match broken.len() {
        0 => Ok(format!(
            "rows: {} worked rows hold for the reference and the reading, {} with other choices for the reading",
            rows.len(),
            with_choices.len()
        )),
        count => Err(format!("{}\n{count} rows are broken", broken.join("\n"))),
    }
}

fn broken_by(row: &Row, sides: &[&dyn Side]) -> Vec<String> {
    sides.iter().filter_map(|side| row.broken_by(*side)).collect()
}

fn compare_sides(options: &Options) -> Ended {
    if let Some(options) = options.of_part() {
        println!("{}", compare_sides(&options)?);
    }
    let start = Instant::now();
    let mut calls = 0;
    let categories = options.categories();
    for &category in &categories {
        demand_known(options.sides, category.choices)?;
        let tally = compare(options.sides, category, options.count, options.seed)
            .map_err(|difference| format!("the sides differ: {difference}"))?;
        println!("{category} {tally}");
        calls += tally.calls;
    }
    if categories.is_empty() {
        return Err("nothing is compared: no call that is named takes these choices".into());
    }
    let [one, other] = options.sides.map(|side| side.name());
    let seconds = start.elapsed().as_secs();
    Ok(format!("compare: {calls} calls, {one} against {other}, no difference, {seconds} s"))
}

fn demand_known(sides: [&dyn Side; 2], choices: Choices) -> Result<(), String> {
    match sides.into_iter().find(|side| !side.knows(choices)) {
        None => Ok(()),
        Some(side) => Err(format!("{} has no choices {}", side.name(), choices.number())),
    }
}

/// The recorded list, derived anew.
fn derived() -> Result<Vec<Recorded>, String> {
    let list = recorded(&Reference, &READING)?;
    check_coverage(&list)?;
    Ok(list)
}

fn record(path: &str) -> Ended {
    let list = derived()?;
    let bytes = to_bytes(&list);
    fs::write(path, &bytes).map_err(|error| format!("{path}: {error}"))?;
    Ok(format!("record: {} calls in {} bytes", list.len(), bytes.len()))
}

fn read(path: &str) -> Result<Vec<u8>, String> {
    fs::read(path).map_err(|error| format!("{path}: {error}"))
}

fn read_recorded(path: &str) -> Result<Vec<Recorded>, String> {
    from_bytes(&read(path)?).ok_or_else(|| format!("{path} is broken"))
}

fn check(path: &str) -> Ended {
    check_against(path, &derived()?)
}

fn check_against(path: &str, list: &[Recorded]) -> Ended {
    if read(path)? != to_bytes(list) {
        return Err(format!("{path} is not what the reference and the reading say now"));
    }
    Ok(format!("check: all {} recorded answers are derived anew, byte for byte", list.len()))
}

fn replay(path: &str, name: &str, options: &Options) -> Ended {
    let side = side(name)?;
    let kinds = options.kinds();
    let (mut replayed, mut unknown) = (0, 0);
    for Recorded { call, answer } in
        read_recorded(path)?.iter().filter(|recorded| kinds.contains(&recorded.call.kind))
    {
        if !side.knows(call.choices) {
            unknown += 1;
            continue;
        }
        let told = side.answer(call);
        if told != *answer {
            return Err(format!("{call}\n  recorded is\n    {answer}\n  {name} says\n    {told}"));
        }
        replayed += 1;
    }
    let left_out = match unknown {
        0 => String::new(),
        count => format!("; {count} are left out, with choices that it does not have"),
    };
    Ok(format!("replay: {replayed} recorded answers are what {name} says{left_out}"))
}

/// The recorded calls and some generated ones as theorems. The seed is not the recorded list's, or
/// else many a call would be stated twice.
fn theorems(folder: &str, options: &[&str]) -> Ended {
    let defaults = Options { count: 1_500, seed: 3, ..Options::default() };
    let Options { count, seed, .. } = defaults.changed_by(options)?;
    let mut theorems = Theorems::default();
    theorems.add("recorded", &read_recorded(RECORDED)?);
    theorems.add("generated", &small_calls(count, seed));
    theorems.write(Path::new(folder)).map_err(|error| format!("{folder}: {error}"))?;
    let (rows, left_out) = (theorems.count(), theorems.left_out());
    Ok(format!(
        "theorems: {rows} rows, {count} of them generated; {left_out} calls left out for their size"
    ))
}

fn check_power(list: &[Recorded]) -> Ended {
    let random = generated(1_000, 7);
    println!("noticed by recorded calls ({}), by generated calls ({}):", list.len(), random.len());
    let noticed = power(list, &random);
    for one in &noticed {
        println!("{:>6} {:>6}  {}", one.recorded, one.generated, one.fault.words());
    }
    let missed: Vec<&str> =
        noticed.iter().filter(|one| one.recorded == 0).map(|one| one.fault.words()).collect();
    if !missed.is_empty() {
        return Err(format!("the recorded calls do not notice: {}", missed.join("; ")));
    }
    Ok(format!(
        "power: each of {} deliberate faults is noticed by the recorded calls",
        noticed.len()
    ))
}

/// The bounded run.
fn ci(path: &str) -> Ended {
    let start = Instant::now();
    println!("{}", rows()?);
    let list = derived()?;
    println!("{}", check_against(path, &list)?);
    println!("{}", check_power(&list)?);
    let seed = 2;
    println!("{}", compare_sides(&Options { count: 300_000, seed, ..Options::default() })?);
    Ok(format!("differential: all agrees, {} s", start.elapsed().as_secs()))
}
