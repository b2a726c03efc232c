//! The command line.

use crate::Failure;
use crate::ask::{Question, name};
use std::ffi::OsString;
use std::path::PathBuf;
use std::str::FromStr;
use usage_merger::{Choices, Lookup, NotationError, QPtrUsage, Table, Ties};

pub const HELP: &str = "\
usage-merge merges usages and shows the merged usage, the conflicts and what it took.

    usage-merge [OPTIONS] USAGE USAGE         merges two usages
    usage-merge [OPTIONS] USAGE ...           folds any other number of usages, one or more
    usage-merge --at OFFSET USAGE USAGE       places the second into the first at an offset

    --table TABLE   the layout table; document 01's bench table if none is given
    --ties WHO      who receives on a tie of size and strictness, at every level: `first` or `second`;
                    the second if nobody is named. First is the usage so far in a fold, the element
                    of an array, and of two entries at one offset the one that is being put in
    --lookup HOW    what an array type contains at the index that is its length, one past its last
                    element: `lenient` an element of size 0, `strict` nothing; lenient if not said
    --frame         writes the frame for the program `merge` to standard output, and nothing else; the
                    program's ties go to the second, and its lookup is lenient
    --svg FILE      also draws the usages and the result to a file
    --help          this text

A usage is U8 (unused), D4,0 (direct access of 4 bytes, type 0), S4,0 (strictly typed), A16,4,D4,0
(array of 16 bytes, stride 4, element) or O8[0:D4,0 4:D4,1] (map of 8 bytes, offset:usage); `*` is a
dynamic size. Where two are merged they may also be `Opaque 4` or `Buffer U8`.
A table is `scalar 4; elements 16 (4, 0, 4); fields 8 {0:0 4:1}; handle; failed`: elements have a
stride, a type and a length (0 for none), fields offset:type, and `scalar 4+8` a dynamic stride of 8.
Types are numbered from 0. The bench table is
    scalar 4; scalar 4; fields 8 {0:0 4:1}; elements 16 (4, 0, 4); handle

Exit status: 0 answered, conflicts or none; 1 refused, or a file could not be written; 2 misused.
";

/// What the command line asks for.
pub struct Arguments {
    pub question: Question,
    pub frame: bool,
    pub svg: Option<PathBuf>,
}

/// The options and words as they were given.
#[derive(Default)]
struct Given {
    table: Option<String>,
    ties: Option<String>,
    lookup: Option<String>,
    at: Option<String>,
    frame: bool,
    svg: Option<PathBuf>,
    usages: Vec<String>,
}

impl Arguments {
    /// Reads the words after the program's name; `None` if help is wanted.
    pub fn read(words: impl Iterator<Item = OsString>) -> Result<Option<Arguments>, Failure> {
        let Some(given) = Given::read(words)? else { return Ok(None) };
        let table = match &given.table {
            Some(text) => parsed("the table", text)?,
            None => Table::bench(),
        };
        let choices = given.choices()?;
        let at = given.at.as_deref().map(offset).transpose()?;
        let count = given.usages.len();
        let usage =
            |(index, text): (usize, &String)| parsed(&format!("the {} usage", name(index)), text);
        let usages: Vec<QPtrUsage> =
            given.usages.iter().enumerate().map(usage).collect::<Result<_, _>>()?;
        let question = Question { table, choices, usages, at };
        if count == 0 {
            return Err(Failure::misused("no usage is given; --help says how"));
        }
        if question.at.is_some() && count != 2 {
            return Err(Failure::misused(format!("--at takes two usages, not {count}")));
        }
        if !question.merges_tops() {
            memories_only(&question)?;
        }
        Ok(Some(Arguments { question, frame: given.frame, svg: given.svg }))
    }
}

/// Only merging two takes handles.
fn memories_only(question: &Question) -> Result<(), Failure> {
    let memory = |usage: &QPtrUsage| matches!(usage, QPtrUsage::Memory(_));
    match question.usages.iter().position(|usage| !memory(usage)) {
        None => Ok(()),
        Some(index) => Err(Failure::misused(format!(
            "the {} usage, {}, is no memory, and only two usages without --at may be handles",
            name(index),
            question.usages[index]
        ))),
    }
}

impl Given {
    fn read(mut words: impl Iterator<Item = OsString>) -> Result<Option<Given>, Failure> {
        let mut given = Given::default();
        let mut options = true;
        while let Some(word) = words.next() {
            let word = text(word)?;
            let (option, value) = match word.split_once('=') {
                Some((option, value)) => (option, Some(value.to_string())),
                None => (&word[..], None),
            };
            let mut value = || match &value {
                Some(value) => Ok(OsString::from(value)),
                None => words.next().ok_or_else(|| {
                    Failure::misused(format!("{option} needs something after it; --help says what"))
                }),
            };
            match option {
                _ if !options || !word.starts_with('-') => given.usages.push(word),
                "--" => options = false,
                "--help" | "-h" => return Ok(None),
                "--frame" => given.frame = true,
                "--table" => given.table = Some(text(value()?)?),
                "--ties" => given.ties = Some(text(value()?)?),
                "--lookup" => given.lookup = Some(text(value()?)?),
                "--at" => given.at = Some(text(value()?)?),
                "--svg" => given.svg = Some(PathBuf::from(value()?)),
                _ => {
                    return Err(Failure::misused(format!(
                        "no option is {word}; --help lists them"
                    )));
                }
            }
        }
        Ok(Some(given))
    }

    /// What is chosen. Where nothing is, it is as in the source.
    fn choices(&self) -> Result<Choices, Failure> {
        let ties = self.ties.as_deref().map(ties).transpose()?.unwrap_or_default();
        let lookup = self.lookup.as_deref().map(lookup).transpose()?.unwrap_or_default();
        Ok(Choices::default().with_ties(ties).with_lookup(lookup))
    }
}

fn text(word: OsString) -> Result<String, Failure> {
    let lossy = |word: OsString| word.to_string_lossy().into_owned();
    word.into_string().map_err(|word| Failure::misused(format!("`{}` is no text", lossy(word))))
}

fn offset(text: &str) -> Result<u32, Failure> {
    let digits = text.trim();
    let all_digits = !digits.is_empty() && digits.bytes().all(|byte| byte.is_ascii_digit());
    let number = if all_digits { digits.parse().ok() } else { None };
    number.ok_or_else(|| unexpected("--at: expected a number of at most 4294967295", digits))
}

fn ties(text: &str) -> Result<Ties, Failure> {
    match text.trim() {
        "first" => Ok(Ties::First),
        "second" => Ok(Ties::Second),
        other => Err(unexpected("--ties: expected `first` or `second`", other)),
    }
}

fn lookup(text: &str) -> Result<Lookup, Failure> {
    match text.trim() {
        "lenient" => Ok(Lookup::Lenient),
        "strict" => Ok(Lookup::Strict),
        other => Err(unexpected("--lookup: expected `lenient` or `strict`", other)),
    }
}

/// What was expected of an option, above what it was given.
fn unexpected(expected: &str, given: &str) -> Failure {
    Failure::misused(format!("{expected}\n  {}\n  ^", given.replace(char::is_control, " ")))
}

/// Reads something, or shows where it is wrong.
fn parsed<T: FromStr<Err = NotationError>>(what: &str, text: &str) -> Result<T, Failure> {
    text.parse().map_err(|error: NotationError| {
        let indented = error.pointing_into(text).replace('\n', "\n  ");
        Failure::misused(format!("{what}: expected {}\n  {indented}", error.expected()))
    })
}
