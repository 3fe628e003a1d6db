//! A second, independent program of the handset's rules, made from the papers
//! alone, and a tester that holds another program against it. Of the change
//! requests it has T-01 to T-06, T-09 and T-11. Frames, answers, keys and
//! judgements go by the record's edition, and each edition has its command
//! writer; the verdict in a text mode, which takes no record, and the rules of a
//! choice screen are those of the first edition.
//!
//! The model is written plainly, to be read beside the paper: `record`,
//! `fields` (a table: where a field stands and its range), `grammar`,
//! `commands` (a table an edition: how a command is spelt, its ranges, its effect),
//! `stream` (parts the whole stream first, then takes the parts), `places`
//! (the part at a place, the verdict of a frame in a mode or on a record),
//! `choice` (the rules of a choice screen), `keys` (a list of rules an edition),
//! `seen`, `writers` (with a table of the sister's kinds). `script` reads and
//! answers scripts: one call a line. `generate` makes random scripts by a seed;
//! it and `cover`, which says what they should reach, go by the tables.
//!
//! Commands:
//!
//! - `tests make SEED CALLS [KINDS]`: writes a script of so many calls.
//! - `tests answer < script`: the model's answers.
//! - `tests compare PROGRAM-WORDS... --seeds A..B --calls N [--kinds KINDS]
//!   [--seconds S]`: runs the program on the script of each seed from A to
//!   B - 1 and compares its answers with the model's. The last line is
//!   `N passed, M failed`; the exit status is 1 if one failed.
//! - `tests list [--sister] < stream`: the listing of the program "list screen".
//! - `tests parts < stream`: a line `PLACE KIND END` for each part, where KIND
//!   is `text`, `skipped`, `closed`, `abandoned` or `tail`.
//! - `tests verdicts [--sister] < stream`: a line for each closed frame,
//!   `PLACE bad`, `PLACE passed over NUMBER` (its first number out of range),
//!   `PLACE refused` or `PLACE obeyed`, from the power-on record on.
//! - `tests screens PROGRAM-WORDS... --seeds A..B [--seconds S]`: compares
//!   that program's listings of random streams. `--sister` among its words makes
//!   them the sister's.
//! - `tests property A..B`: checks the model against itself.
//! - `tests cover A..B [CALLS]`: counts what the scripts of these seeds
//!   reach; exit status 1 if something isn't reached.
//!
//! KINDS is a list of call letters, for instance `PSRF`; without it all
//! (`POZSRFNDJIEKCHBQUMVWYTGX`, where X stands for lines that can't be taken).

mod choice;
mod commands;
mod compare;
mod cover;
mod fields;
mod generate;
mod grammar;
mod keys;
mod places;
mod property;
mod record;
mod rng;
mod script;
mod seen;
mod stream;
mod writers;

#[cfg(test)]
mod checks;

use std::io::{BufRead, Read, Write};
use std::ops::Range;
use std::process::ExitCode;

const USAGE: &str = "usage:
  tests make SEED CALLS [KINDS]
  tests answer < script
  tests compare PROGRAM-WORDS... --seeds A..B --calls N [--kinds KINDS] [--seconds S]
  tests list [--sister] < stream
  tests parts < stream
  tests verdicts [--sister] < stream
  tests screens PROGRAM-WORDS... --seeds A..B [--seconds S]
  tests property A..B
  tests cover A..B [CALLS]";

fn main() -> ExitCode {
    let words: Vec<String> = std::env::args().skip(1).collect();
    match command(&words) {
        Ok(true) => ExitCode::SUCCESS,
        Ok(false) => ExitCode::from(1),
        Err(why) => {
            eprintln!("{why}\n{USAGE}");
            ExitCode::from(2)
        }
    }
}

fn number<T: std::str::FromStr>(word: &str) -> Result<T, String> {
    word.parse().map_err(|_| format!("no number: {word}"))
}

fn seeds(word: &str) -> Result<Range<u64>, String> {
    let (from, to) = word.split_once("..").ok_or_else(|| format!("no range of seeds: {word}"))?;
    Ok(number(from)?..number(to)?)
}

fn kinds(word: &str) -> Result<String, String> {
    if !word.is_empty() && word.chars().all(|letter| generate::KINDS.contains(letter)) {
        Ok(word.to_string())
    } else {
        Err(format!("no list of call letters: {word}"))
    }
}

/// The words of the program and the options behind them.
struct Options {
    program: Vec<String>,
    seeds: Range<u64>,
    calls: usize,
    kinds: String,
    seconds: Option<u64>,
}

fn options(words: &[String]) -> Result<Options, String> {
    let mut options =
        Options { program: vec![], seeds: 0..20, calls: 2000, kinds: generate::KINDS.to_string(), seconds: None };
    let mut rest = words.iter();
    while let Some(word) = rest.next() {
        let mut value = || rest.next().ok_or_else(|| format!("no value for {word}"));
        match word.as_str() {
            "--seeds" => options.seeds = seeds(value()?)?,
            "--calls" => options.calls = number(value()?)?,
            "--kinds" => options.kinds = kinds(value()?)?,
            "--seconds" => options.seconds = Some(number(value()?)?),
            _ => options.program.push(word.clone()),
        }
    }
    match options.program.first() {
        None => Err("no program named".to_string()),
        Some(first) if !compare::looks_runnable(first) => Err(format!("no such program: {first}")),
        Some(_) => Ok(options),
    }
}

fn command(words: &[String]) -> Result<bool, String> {
    let words: Vec<&str> = words.iter().map(String::as_str).collect();
    let owned = |words: &[&str]| words.iter().map(|w| w.to_string()).collect::<Vec<_>>();
    let text = |error: std::io::Error| error.to_string();
    match words[..] {
        ["make", seed, calls] => make(number(seed)?, number(calls)?, generate::KINDS),
        ["make", seed, calls, list] => make(number(seed)?, number(calls)?, &kinds(list)?),
        ["answer"] => answer().map_err(text),
        ["list"] => listing(|stream| seen::listing(&record::power_on(), stream)).map_err(text),
        ["list", "--sister"] => listing(|stream| seen::listing(&record::sister_power_on(), stream)).map_err(text),
        ["parts"] => listing(places::list_parts).map_err(text),
        ["verdicts"] => listing(|stream| places::list_verdicts(&record::power_on(), stream)).map_err(text),
        ["verdicts", "--sister"] => {
            listing(|stream| places::list_verdicts(&record::sister_power_on(), stream)).map_err(text)
        }
        ["compare", ref rest @ ..] => {
            let options = options(&owned(rest))?;
            let folder = compare::Folder::new().map_err(text)?;
            Ok(tell(compare::over(options.seeds.clone(), options.seconds, |seed| {
                compare::script_differs(&options.program, &folder, seed, options.calls, &options.kinds)
            })))
        }
        ["screens", ref rest @ ..] => {
            let options = options(&owned(rest))?;
            let folder = compare::Folder::new().map_err(text)?;
            Ok(tell(compare::over(options.seeds.clone(), options.seconds, |seed| {
                compare::listing_differs(&options.program, &folder, seed)
            })))
        }
        ["property", range] => Ok(properties(seeds(range)?)),
        ["cover", range] => Ok(covered(seeds(range)?, 2000)),
        ["cover", range, calls] => Ok(covered(seeds(range)?, number(calls)?)),
        _ => Err("no such command".to_string()),
    }
}

/// Prints the last line. False if one failed or none was tried.
fn tell((passed, failed): (u64, u64)) -> bool {
    println!("{passed} passed, {failed} failed");
    failed == 0 && passed > 0
}

fn make(seed: u64, calls: usize, kinds: &str) -> Result<bool, String> {
    let script = generate::script(seed, calls, kinds);
    std::io::stdout().write_all(&script).map_err(|error| error.to_string())?;
    Ok(true)
}

/// Writes what is to be listed of the stream on standard input.
fn listing(of: fn(&[u8]) -> String) -> std::io::Result<bool> {
    let mut stream = vec![];
    std::io::stdin().read_to_end(&mut stream)?;
    std::io::stdout().write_all(of(&stream).as_bytes())?;
    Ok(true)
}

fn answer() -> std::io::Result<bool> {
    let mut out = std::io::BufWriter::new(std::io::stdout().lock());
    let mut record = record::power_on();
    for line in std::io::stdin().lock().split(record::LF) {
        out.write_all(&script::answer(&mut record, &line?))?;
    }
    out.flush()?;
    Ok(true)
}

fn properties(seeds: Range<u64>) -> bool {
    let (mut passed, mut failed) = (0, 0);
    let mut tell_one = |name: &str, result: Result<(), String>| match result {
        Ok(()) => passed += 1,
        Err(why) => {
            println!("{name}: {why}");
            failed += 1;
        }
    };
    for (name, check) in property::ONCE {
        tell_one(name, check());
    }
    for (name, check) in property::CHECKS {
        for seed in seeds.clone() {
            tell_one(name, check(seed).map_err(|why| format!("seed {seed}: {why}")));
        }
    }
    for (name, check) in property::BOTH {
        for (seed, sister) in seeds.clone().flat_map(|seed| [(seed, false), (seed, true)]) {
            let whose = if sister { "the sister's " } else { "" };
            tell_one(name, check(seed, sister).map_err(|why| format!("{whose}seed {seed}: {why}")));
        }
    }
    tell((passed, failed))
}

fn covered(seeds: Range<u64>, calls: usize) -> bool {
    let cover = cover::over(seeds, calls);
    let (mut passed, mut failed) = (0, 0);
    for name in cover::wanted() {
        let count = cover.count(&name);
        println!("{count:8} {name}");
        if count > 0 {
            passed += 1;
        } else {
            failed += 1;
        }
    }
    tell((passed, failed))
}
