//! The command `usage-merge`, run as people run it.

#[allow(dead_code)]
mod random;

use random::Rng;
use std::path::PathBuf;
use std::process::{Command, Output};
use std::{env, fs};
use usage_merger::Choices;
use usage_merger::calls::{self, Buffers, Setting, WORK_AREA};

fn run(arguments: &[&str]) -> Output {
    let command = env!("CARGO_BIN_EXE_usage-merge");
    Command::new(command).args(arguments).output().expect("the command can be run")
}

/// Standard output of a run that is answered.
fn shown(arguments: &[&str]) -> String {
    let output = run(arguments);
    let errors = String::from_utf8(output.stderr).unwrap();
    assert_eq!((output.status.code(), &errors[..]), (Some(0), ""), "{arguments:?}");
    String::from_utf8(output.stdout).unwrap()
}

/// Standard error of a run that ends with this status and shows nothing else.
fn failed(status: i32, arguments: &[&str]) -> String {
    let output = run(arguments);
    assert_eq!(output.status.code(), Some(status), "{arguments:?}");
    assert!(output.stdout.is_empty(), "{arguments:?}");
    String::from_utf8(output.stderr).unwrap()
}

#[test]
fn two_usages_are_merged() {
    let expected = "\
first   Memory O8[0:D4,0]  sound, 2 nodes, receives
second  Memory D4,1        sound, 1 node
merged  Memory O8[0:D4,0]  sound, 2 nodes

  OffsetBase, 8 bytes, 1 entry
    at 0: DirectAccess, 4 bytes, type 0 (scalar 4)

1 conflict
  entry at 0: no type here supports the other usage; the receiver's type is kept
2 pairings, of at most 3; 2 nodes, of at most 3
  promised of M = 3 nodes in: at most M nodes out, and M(M-1)/2 pairings
  all usages are sound: never 8 or 9, a sound answer, as large as the largest
";
    assert_eq!(shown(&["O8[0:D4,0]", "D4,1"]), expected);
}

#[test]
fn any_kind_of_node_is_shown() {
    let all = shown(&["O*[0:S4,0 8:A16,4,D4,0 24:U* 40:D*,1]", "U0"]);
    let tree = "\
  OffsetBase, dynamic size, 4 entries
    at 0: StrictlyTyped, 4 bytes, type 0 (scalar 4)
    at 8: DynOffsetBase, 16 bytes, stride 4
      each element: DirectAccess, 4 bytes, type 0 (scalar 4)
    at 24: Unused, dynamic size
    at 40: DirectAccess, dynamic size, type 1 (scalar 4)
";
    assert!(all.contains(tree), "{all}");
    assert!(all.contains("not sound: first; so it might have been refused"), "{all}");
}

#[test]
fn handles_and_buffers_are_merged() {
    let unlike = shown(&["Opaque 4", "Buffer U8"]);
    assert!(unlike.contains("  opaque handle, type 4 (handle)\n"), "{unlike}");
    assert!(unlike.contains("the two are unlike handles, or a handle and memory"), "{unlike}");
    assert!(unlike.contains("0 pairings, of at most 0"), "{unlike}");
    // Here the answer is not as large as the largest.
    for pair in [["Buffer D4,0", "D8,2"], ["Opaque 4", "D8,2"], ["Opaque 4", "Opaque 4"]] {
        let kept = shown(&pair);
        let promise = "nothing is merged: never 8 or 9, and the answer is the first as it stands";
        assert!(kept.contains(promise) && !kept.contains("the largest"), "{kept}");
    }
    let buffers = shown(&["Buffer D4,0", "Buffer U8"]);
    assert!(buffers.contains("  buffer of\n  DirectAccess, 8 bytes"), "{buffers}");
    assert!(buffers.contains("as large as the largest"), "{buffers}");
}

#[test]
fn more_usages_are_folded_and_one_stays() {
    let folded = shown(&["O8[0:D4,0]", "O8[4:D4,1]", "D4,1", "D8,2"]);
    assert!(folded.contains("\nthird   Memory D4,1"), "{folded}");
    assert!(folded.contains("\n4th     Memory D8,2"), "{folded}");
    assert!(folded.contains("\nfolded  Memory D8,2"), "{folded}");
    assert!(folded.contains("  merging in the third: entry at 0: no type here"), "{folded}");
    let many = shown(&["D4,0"; 24]);
    for name in
        ["\n11th    M", "\n12th    M", "\n21st    M", "\n22nd    M", "\n23rd    M", "\n24th    M"]
    {
        assert!(many.contains(name), "{many}");
    }
    let one = shown(&["O8[0:D4,0]"]);
    assert!(one.contains("folded  Memory O8[0:D4,0]") && one.contains("0 pairings"), "{one}");
}

#[test]
fn a_usage_is_placed_at_an_offset() {
    let placed = shown(&["--at", "8", "O16[0:D4,0]", "D4,1"]);
    assert!(placed.contains("placed  Memory O16[0:D4,0 8:D4,1]"), "{placed}");
    assert!(placed.contains("sound, 1 node, at 8"), "{placed}");
    assert_eq!(placed, shown(&["--at=8", "O16[0:D4,0]", "D4,1"]));
    assert!(failed(2, &["--at", "8", "U4"]).contains("--at takes two usages, not 1"));
    assert!(failed(2, &["--at", "8", "Opaque 1", "U4"]).contains("is no memory"));
    assert!(failed(2, &["--at", "x8", "U4", "U4"]).ends_with("  x8\n  ^\n"));
    let outgrown = failed(1, &["--at", "13", "O16[0:D4,0]", "D4,1"]);
    assert!(outgrown.contains("refusal 8, outgrown"), "{outgrown}");
    assert!(outgrown.contains("all usages are sound; placing at an offset may"), "{outgrown}");
}

#[test]
fn a_tie_is_told_and_its_rule_is_chosen() {
    let second = shown(&["D4,0", "D4,1"]);
    let receives =
        "second  Memory D4,1  sound, 1 node, receives: a tie, and ties go to the second\n";
    assert!(second.contains(receives), "{second}");
    assert!(second.contains("\nmerged  Memory D4,1  sound, 1 node\n"), "{second}");
    assert_eq!(second, shown(&["--ties", "second", "D4,0", "D4,1"]));

    let first = shown(&["--ties", "first", "D4,0", "D4,1"]);
    let receives =
        "first   Memory D4,0  sound, 1 node, receives: a tie, and ties go to the first\n";
    assert!(first.starts_with(receives), "{first}");
    assert!(
        first.contains("\nmerged  Memory D4,0  sound, 1 node, ties go to the first\n"),
        "{first}"
    );
    assert_eq!(first, shown(&["--ties=first", "D4,0", "D4,1"]));
    assert_eq!(first, shown(&["--ties", "second", "--ties", "first", "D4,0", "D4,1"]));
    let buffers = shown(&["--ties", "first", "Buffer D4,0", "Buffer D4,1"]);
    assert!(buffers.contains("merged  Buffer D4,0"), "{buffers}");

    // Where size or strictness decides, the rule does not.
    for ties in ["first", "second"] {
        let larger = shown(&["--ties", ties, "D4,0", "O8[4:D4,1]"]);
        assert!(larger.contains("  sound, 2 nodes, receives\n"), "{larger}");
        let stricter = shown(&["--ties", ties, "D8,2", "O8[4:D4,1]"]);
        assert!(stricter.contains("  sound, 1 node, receives\n"), "{stricter}");
    }
}

#[test]
fn ties_are_met_in_folds_and_placings() {
    let usages = ["D4,0", "D4,1", "D4,0", "D4,1"];
    assert!(shown(&usages).contains("\nfolded  Memory D4,1  sound, 1 node\n"));
    let folded = shown(&[&["--ties", "first"], &usages[..]].concat());
    assert!(
        folded.contains("\nfolded  Memory D4,0  sound, 1 node, ties go to the first\n"),
        "{folded}"
    );
    let pair = ["A8,4,D4,0", "D4,1"];
    assert!(shown(&[&["--at", "4"], &pair[..]].concat()).contains("\nplaced  Memory A8,4,D4,1  "));
    let placed = shown(&[&["--at", "4", "--ties", "first"], &pair[..]].concat());
    assert!(placed.contains("\nplaced  Memory A8,4,D4,0  "), "{placed}");
}

#[test]
fn the_lookup_is_chosen_and_what_it_decides_is_told() {
    let expected = "\
first   Memory O16[16:D0,0]  not sound, 2 nodes
second  Memory D16,3         sound, 1 node, receives
merged  Memory D16,3         sound, 1 node, strict lookup

  DirectAccess, 16 bytes, type 3 (elements 16 (4, 0, 4))

1 conflict
  entry at 16: no type here supports the other usage; the receiver's type is kept (strict lookup only)
the lenient lookup gives the same usage and no conflicts
2 pairings, of at most 3; 1 node, of at most 3
  promised of M = 3 nodes in: at most M nodes out, and M(M-1)/2 pairings
  not sound: first; so it might have been refused with 8 or 9
";
    let row = ["O16[16:D0,0]", "D16,3"];
    assert_eq!(shown(&[&["--lookup", "strict"], &row[..]].concat()), expected);
    assert_eq!(shown(&[&["--lookup=lenient", "--lookup=strict"], &row[..]].concat()), expected);
    let lenient = shown(&row);
    assert!(lenient.contains("\nno conflicts\n") && !lenient.contains("lookup"), "{lenient}");
    assert_eq!(lenient, shown(&[&["--lookup", "lenient"], &row[..]].concat()));

    // Where the two lookups agree, nothing is said of the other.
    for usages in [["O16[12:D4,0]", "D16,3"], ["O16[0:D4,1]", "D16,3"], ["Opaque 4", "D16,3"]] {
        let same = shown(&[&["--lookup", "strict"], &usages[..]].concat());
        assert!(same.contains(", strict lookup\n"), "{same}");
        assert_eq!(same.replace(", strict lookup", ""), shown(&usages));
    }
}

#[test]
fn the_lookup_is_asked_in_folds_and_placings_and_of_sound_usages() {
    let strict = |words: &[&str]| shown(&[&["--lookup", "strict"], words].concat());
    let placed = strict(&["--at", "16", "D16,3", "D0,0"]);
    assert!(placed.contains("gives the same usage and no conflicts\n"), "{placed}");
    let buffers = strict(&["Buffer O16[16:D0,0]", "Buffer D16,3"]);
    assert!(buffers.contains("gives the same usage and no conflicts\n"), "{buffers}");
    let folded = strict(&["D16,3", "O16[0:D4,1]", "O16[16:D0,0]"]);
    let expected = "
2 conflicts
  merging in the second: entry at 0: no type here supports the other usage; the receiver's type is kept
  merging in the third: entry at 16: no type here supports the other usage; the receiver's type is kept (strict lookup only)
the lenient lookup gives the same usage and 1 conflict
";
    assert!(folded.contains(expected), "{folded}");
    let table = "scalar 1+1; elements 1+1 (1, 0, 1)";
    let sound = strict(&["--table", table, "O*[1:D*,0]", "D*,1"]);
    assert!(sound.contains("  entry at 1: no type here supports"), "{sound}");
    assert!(sound.contains("(strict lookup only)\n"), "{sound}");
    assert!(sound.contains("all usages are sound"), "{sound}");
}

#[test]
fn the_conflicts_of_the_lookup_are_marked() {
    let strict = |words: &[&str]| shown(&[&["--lookup", "strict"], words].concat());
    let words = "no type here supports the other usage; the receiver's type is kept";
    let told = strict(&["O16[0:D4,1 16:D0,0]", "D16,3"]);
    let expected = format!(
        "\n2 conflicts\n  entry at 0: {words}\n  entry at 16: {words} (strict lookup only)\n\
         the lenient lookup gives the same usage and 1 conflict\n"
    );
    assert!(told.contains(&expected), "{told}");

    // The lenient report says that 20 is an entry beside 0; by the longer one it may be in 0, too.
    let nested = strict(&["O24[0:D16,3 20:D4,0]", "O24[0:O16[16:D0,0] 20:D4,1]"]);
    assert!(nested.contains("\n2 conflicts\n") && nested.contains("16: no type"), "{nested}");
    assert!(nested.contains("(perhaps under 0, 0; the report does not say)"), "{nested}");
    assert_eq!(nested.matches("is kept (strict lookup only)\n").count(), 1, "{nested}");
    assert_eq!(nested.matches("lookup only").count(), 1, "{nested}");

    // Which of two lines that read alike is the lookup's, the reports do not say.
    let table = "scalar 4; elements 16 (4, 0, 4); fields 40 {0:1 20:1}";
    let usages = ["O40[0:O40[16:D0,0 36:D0,0] 36:D4,0]", "D40,2"];
    let alike = strict(&[&["--table", table], &usages[..]].concat());
    let line = format!("  entry at 36 (perhaps under 0; the report does not say): {words}");
    assert!(alike.contains(&format!("  entry at 0, entry at 16: {words} (strict lookup only)\n")));
    let marked = format!("{line} (perhaps strict lookup only)\n");
    assert!(alike.contains(&marked.repeat(2)), "{alike}");
    assert!(alike.contains("gives the same usage and 1 conflict\n"), "{alike}");
}

#[test]
fn choices_combine() {
    let table = "scalar 4; elements 16 (4, 0, 4); elements 16 (4, 0, 4)";
    let usages = ["--table", table, "D16,1", "D16,2", "O16[16:D0,0]"];
    let both = shown(&[&["--ties", "first", "--lookup", "strict"], &usages[..]].concat());
    let words =
        "\nfolded  Memory D16,1         sound, 1 node, ties go to the first, strict lookup\n";
    assert!(both.contains(words) && both.contains("\n2 conflicts\n"), "{both}");
    assert!(both.contains("gives the same usage and 1 conflict\n"), "{both}");
    assert_eq!(both, shown(&[&["--lookup=strict", "--ties=first"], &usages[..]].concat()));
}

#[test]
fn a_table_is_taken() {
    let table = "scalar 4; elements 0+4 (4, 0, 0)";
    let merged = shown(&["--table", table, "D*,1", "O8[4:D4,0]"]);
    assert!(merged.contains("type 1 (elements 0+4 (4, 0, 0))"), "{merged}");
    assert!(merged.contains("no conflicts"), "{merged}");
    let bad = failed(1, &["--table", "fields 8 {0:1}", "U0", "U0"]);
    assert_eq!(bad, "usage-merge: refusal 2, bad table: it breaks the table rules\n");
}

#[test]
fn refusals_are_said_in_words() {
    let outgrown = failed(1, &["A32,16,D4,0", "O32[8:D4,0]"]);
    assert!(outgrown.contains("refusal 8, outgrown"), "{outgrown}");
    assert!(outgrown.contains("not sound: first; sound usages are never refused so"), "{outgrown}");
    let past = failed(1, &["O*[4294967294:D4,0]", "O*[0:D*,0]"]);
    assert!(past.contains("refusal 9, past 32 bits"), "{past}");
    let unknown = failed(1, &["D4,5", "U0"]);
    assert!(unknown.contains("refusal 5, unknown type"), "{unknown}");
    assert!(unknown.contains("the table has 5 types"), "{unknown}");
    let many = format!("{}U1", "A1,1,".repeat(511));
    assert!(failed(1, &[&many, "U0"]).contains("refusal 7, too many nodes"));
}

#[test]
fn bad_notation_is_pointed_at() {
    let expected = "\
usage-merge: the second usage: expected `,`
  O8[0:D4 0]
          ^
";
    assert_eq!(failed(2, &["U0", "O8[0:D4 0]"]), expected);
    let expected = "\
usage-merge: the table: expected `scalar`, `elements`, `fields`, `handle` or `failed`
  scalar 4; scaler 4
            ^
";
    assert_eq!(failed(2, &["--table", "scalar 4; scaler 4", "U0", "U0"]), expected);
    let deep = "O1[0:".repeat(10_000);
    let told = failed(2, &[&deep, "U0"]);
    assert!(told.contains("at most 512 levels") && told.len() < 400, "{told}");
}

#[test]
fn misuse_is_said() {
    assert!(failed(2, &[]).contains("no usage is given"));
    assert!(failed(2, &["--at"]).contains("--at needs something after it"));
    assert!(failed(2, &["--nothing", "U0"]).contains("no option is --nothing"));
    assert!(failed(2, &["U0", "Opaque 1", "U0"]).contains("is no memory"));
    assert!(failed(2, &["--", "-U0"]).contains("the first usage: expected"));
    assert!(failed(2, &["--ties"]).contains("--ties needs something after it"));
    let expected = "usage-merge: --ties: expected `first` or `second`\n  third\n  ^\n";
    assert_eq!(failed(2, &["--ties", "third", "U0"]), expected);
    assert_eq!(failed(2, &["--ties=third", "U0"]), expected);
    assert!(failed(2, &["--ties=", "U0"]).contains("expected `first` or `second`"));
    assert!(failed(2, &["--lookup"]).contains("--lookup needs something after it"));
    let expected = "usage-merge: --lookup: expected `lenient` or `strict`\n  loose\n  ^\n";
    assert_eq!(failed(2, &["--lookup", "loose", "U0"]), expected);
    assert_eq!(failed(2, &["--lookup=loose", "U0"]), expected);
    assert!(shown(&["--help"]).starts_with("usage-merge merges usages"));
    let no_folder = failed(1, &["--svg", "/no folder here/a.svg", "U0", "U0"]);
    assert!(no_folder.contains("/no folder here/a.svg: "), "{no_folder}");
}

#[test]
fn a_frame_has_three_blocks() {
    let frame = run(&["--frame", "O8[0:D4,1]", "D8,2"]).stdout;
    let mut rest = &frame[..];
    let mut blocks = Vec::new();
    while let Some((length, after)) = rest.split_first_chunk::<4>() {
        let (block, after) = after.split_at(u32::from_le_bytes(*length) as usize);
        blocks.push(block.to_vec());
        rest = after;
    }
    let table = usage_merger::Table::bench().to_bytes().unwrap();
    let second = vec![0x0a, 2, 1, 8, 0, 0, 0, 2, 0, 0, 0];
    assert!(rest.is_empty() && blocks.len() == 3);
    assert_eq!((&blocks[0], &blocks[2]), (&table, &second));
    // What the program prints of it.
    let (mut work, mut output, mut report) = (vec![0; WORK_AREA], vec![0; 16_384], vec![0; 16_384]);
    let choices = Choices::default();
    let setting = Setting { table: &blocks[0], work: &mut work, choices };
    let to = Buffers { output: &mut output, report: &mut report };
    let answer = calls::merge(setting, &blocks[1], &blocks[2], to);
    let hex = |bytes: &[u8], length: u64| {
        bytes[..length as usize].iter().fold(String::new(), |hex, byte| format!("{hex}{byte:02x}"))
    };
    let (usage, conflicts) =
        (hex(&output, answer.usage_length), hex(&report, answer.report_length));
    let printed = format!("{} {} {usage} {conflicts}", answer.number, answer.pairings);
    assert_eq!(printed, "0 2 0a02010800000002000000 30310000000032");
    assert!(failed(2, &["--frame", "U0"]).contains("--frame takes two usages"));
    assert!(failed(2, &["--frame", "--at", "0", "U0", "U0"]).contains("without --at"));
    assert!(failed(2, &["--frame", "--svg", "no.svg", "U0", "U0"]).contains("without --svg"));
    let entries: Vec<String> = (0..10_000).map(|offset| format!("{offset}:U1")).collect();
    let long = failed(1, &["--frame", "U0", &format!("O*[{}]", entries.join(" "))]);
    assert!(long.contains("the program reads at most 65536"), "{long}");
}

#[test]
fn a_frame_goes_without_choices() {
    let [plain, source] = [&["--frame"][..], &["--frame", "--ties=second", "--lookup=lenient"]]
        .map(|options| run(&[options, &["O8[0:D4,1]", "D8,2"]].concat()).stdout);
    assert!(!plain.is_empty() && plain == source);
    for (options, named) in [
        (&["--ties", "first"][..], "--ties first"),
        (&["--lookup", "strict"], "--lookup strict"),
        (&["--lookup=strict", "--ties=first"], "--ties first and --lookup strict"),
    ] {
        let expected =
            format!("usage-merge: --frame goes without {named}: the program has no choices\n");
        assert_eq!(failed(2, &[&["--frame"], options, &["U0", "U0"]].concat()), expected);
    }
}

/// A picture's file, in the folder for this run.
fn picture(name: &str, arguments: &[&str]) -> (Output, String) {
    let path = PathBuf::from(env!("CARGO_TARGET_TMPDIR")).join(name);
    let _ = fs::remove_file(&path);
    let output = run(&[&["--svg", path.to_str().unwrap()], arguments].concat());
    (output, fs::read_to_string(&path).unwrap_or_default())
}

/// Every element is closed, in order, and no text has a bare `<` or `&`.
fn well_formed(svg: &str) {
    let mut open = Vec::new();
    let mut rest = svg;
    while let Some((text, after)) = rest.split_once('<') {
        assert!(!text.contains('>'), "{text}");
        for part in text.split('&').skip(1) {
            assert!(["amp;", "lt;", "gt;", "quot;"].iter().any(|word| part.starts_with(word)));
        }
        let (tag, after) = after.split_once('>').expect("every tag ends");
        assert_eq!(tag.matches('"').count() % 2, 0, "{tag}");
        if let Some(name) = tag.strip_prefix('/') {
            assert_eq!(open.pop(), Some(name));
        } else if !tag.ends_with('/') {
            open.push(tag.split(' ').next().unwrap());
        }
        rest = after;
    }
    assert!(open.is_empty() && rest.trim().is_empty());
}

#[test]
fn a_picture_shows_rows_and_overlaps() {
    let (output, svg) = picture("straddle.svg", &["O12[0:D4,0 4:D4,0]", "O12[2:D4,0]"]);
    assert_eq!(output.status.code(), Some(0));
    well_formed(&svg);
    assert!(svg.contains("first: Memory O12[0:D4,0 4:D4,0] (sound)"));
    assert!(svg.contains("result: Memory O12[4:D4,0] (sound)"));
    assert_eq!(svg.matches("class=\"straddle\"").count(), 2);
    assert!(svg.contains("conflict: entry at 0: the entry at 2"));
    assert!(!svg.contains("href") && !svg.contains("@import") && !svg.contains("@font-face"));
    let (_, svg) = picture("shared.svg", &["D8,2", "O8[4:D4,1]", "D4,0"]);
    well_formed(&svg);
    assert_eq!(svg.matches("class=\"both\"").count(), 2);
    // The second slot of the array is accessed by both.
    let (_, svg) = picture("slots.svg", &["A32,16,O16[0:D4,0]", "O32[16:D8,2]"]);
    assert_eq!(svg.matches("class=\"both\"").count(), 1);
    assert!(svg.contains("An array's element is drawn in its first slot"));
    let (_, svg) = picture("ties.svg", &["--ties", "first", "D4,0", "D4,1"]);
    well_formed(&svg);
    assert!(svg.contains("result: Memory D4,0 (sound, ties go to the first)"));
    let (_, svg) = picture("lookup.svg", &["--lookup", "strict", "O16[16:D0,0]", "D16,3"]);
    well_formed(&svg);
    assert!(svg.contains("result: Memory D16,3 (sound, strict lookup)"));
    assert!(svg.contains("conflict (strict lookup only): entry at 16: no type here"));
    let (_, svg) = picture("apart.svg", &["O8[0:D4,0]", "O8[4:D4,1]"]);
    assert!(svg.contains("no byte is accessed by more than one usage"));
    assert!(!svg.contains("An array's element"));
}

#[test]
fn a_picture_is_drawn_of_anything_that_is_read() {
    let cases: [&[&str]; 8] = [
        &["U0", "U0"],
        &["Opaque 4", "Buffer O8[0:D0,0]"],
        &["O*[4294967294:D4,0]", "O*[0:D*,0]"],
        &["A32,16,D4,0", "O32[8:D4,0]"],
        &["--at", "4294967295", "U*", "A4294967295,1,D1,0"],
        &["A*,4,D4,0", "D16,3"],
        &["A64,4,A4,2,D2,0", "A64,4,O4[0:D2,0]"],
        &["D4,9", "U0"],
    ];
    for (index, arguments) in cases.into_iter().enumerate() {
        let (output, svg) = picture(&format!("any{index}.svg"), arguments);
        assert!(matches!(output.status.code(), Some(0 | 1)), "{arguments:?}");
        assert!(svg.starts_with("<svg "), "{arguments:?}");
        well_formed(&svg);
    }
    let many = format!("{}U1", "A1,1,".repeat(511));
    let (output, svg) = picture("many.svg", &[&many, "U0"]);
    assert_eq!((output.status.code(), &svg[..]), (Some(1), ""));
    assert!(String::from_utf8(output.stderr).unwrap().contains("refusal 7, too many nodes"));
}

#[test]
fn any_words_are_answered() {
    let mut rng = Rng::new(7);
    for _ in 0..60 {
        let texts: Vec<String> = (0..rng.below(4))
            .map(|_| match rng.below(3) {
                0 => rng.text(8),
                _ => rng.usage(2).to_string(),
            })
            .filter(|text| !text.contains('\0'))
            .collect();
        let mut words: Vec<&str> = texts.iter().map(String::as_str).collect();
        if rng.one_in(3) {
            let options = [
                "--frame",
                "--at",
                "--table",
                "--at=4",
                "--table=",
                "--ties=first",
                "--ties",
                "--lookup=strict",
                "--lookup",
                "--",
                "-",
            ];
            words.push(rng.pick(&options));
        }
        let (output, _) = picture("words.svg", &words);
        assert!(matches!(output.status.code(), Some(0..=2)), "{words:?}");
        let told = String::from_utf8(output.stderr).unwrap();
        assert_eq!(told.is_empty(), output.status.success(), "{words:?}: {told}");
    }
}

#[cfg(unix)]
#[test]
fn words_that_are_no_text_are_refused() {
    use std::ffi::OsStr;
    use std::os::unix::ffi::OsStrExt;
    let command = env!("CARGO_BIN_EXE_usage-merge");
    let output = Command::new(command).arg(OsStr::from_bytes(b"U\xff")).output().unwrap();
    assert_eq!(output.status.code(), Some(2));
}
