//! Compares another program's answers with the model's.

use std::fs::File;
use std::io::Write;
use std::path::{Path, PathBuf};
use std::process::{Command, Stdio};
use std::time::{Duration, Instant};

use crate::record::{power_on, sister_power_on, LF};
use crate::{generate, script};

/// How long the program may take for one script.
const PATIENCE: Duration = Duration::from_secs(120);

/// Calls shown before a difference.
const SHOWN: usize = 6;

/// A folder for the files of this run, gone at the end.
pub struct Folder(PathBuf);

impl Folder {
    pub fn new() -> std::io::Result<Folder> {
        let name = format!("handset-compare-{}", std::process::id());
        let path = std::env::temp_dir().join(name);
        std::fs::create_dir_all(&path)?;
        Ok(Folder(path))
    }
    fn file(&self, name: &str) -> PathBuf {
        self.0.join(name)
    }
}

impl Drop for Folder {
    fn drop(&mut self) {
        let _ = std::fs::remove_dir_all(&self.0);
    }
}

/// Runs the program on this input. Its output, or why there is none.
fn run(words: &[String], folder: &Folder, input: &[u8]) -> Result<Vec<u8>, String> {
    let text = |error: std::io::Error| error.to_string();
    let [script, output, errors] = ["script", "output", "errors"].map(|name| folder.file(name));
    File::create(&script).and_then(|mut file| file.write_all(input)).map_err(text)?;
    let mut child = Command::new(&words[0])
        .args(&words[1..])
        .stdin(Stdio::from(File::open(&script).map_err(text)?))
        .stdout(Stdio::from(File::create(&output).map_err(text)?))
        .stderr(Stdio::from(File::create(&errors).map_err(text)?))
        .spawn()
        .map_err(|error| format!("can't start {}: {error}", words[0]))?;
    let start = Instant::now();
    let mut nap = Duration::from_micros(200);
    let status = loop {
        if let Some(status) = child.try_wait().map_err(text)? {
            break status;
        }
        if start.elapsed() > PATIENCE {
            let _ = child.kill();
            let _ = child.wait();
            return Err(format!("no end after {} s", PATIENCE.as_secs()));
        }
        std::thread::sleep(nap);
        nap = (nap * 2).min(Duration::from_millis(5));
    };
    let bytes = std::fs::read(&output).map_err(text)?;
    if !status.success() {
        let said = std::fs::read(&errors).unwrap_or_default();
        let said = String::from_utf8_lossy(&said);
        let lines = bytes.split(|&b| b == LF).count().saturating_sub(1);
        return Err(format!("ended with {status} after {lines} lines of answer: {}", short(said.trim().as_bytes())));
    }
    Ok(bytes)
}

fn short(bytes: &[u8]) -> String {
    let text = String::from_utf8_lossy(bytes);
    if text.len() <= 600 {
        return text.into_owned();
    }
    let head: String = text.chars().take(560).collect();
    format!("{head}... ({} bytes)", bytes.len())
}

/// Where two lines first differ, with some signs around.
fn place_of_difference(a: &[u8], b: &[u8]) -> usize {
    a.iter().zip(b).take_while(|(x, y)| x == y).count()
}

/// Compares one script. None: no difference.
pub fn script_differs(words: &[String], folder: &Folder, seed: u64, calls: usize, kinds: &str) -> Option<String> {
    let text = generate::script(seed, calls, kinds);
    let theirs = match run(words, folder, &text) {
        Ok(theirs) => theirs,
        Err(why) => return Some(format!("seed {seed}: the program {why}")),
    };
    let mut theirs = theirs.split(|&byte| byte == LF);
    let lines: Vec<&[u8]> = script::lines(&text).collect();
    let mut record = power_on();
    for (place, line) in lines.iter().enumerate() {
        let ours = script::answer(&mut record, line);
        let Some(ours) = ours.strip_suffix(&[LF]) else {
            continue;
        };
        for ours in ours.split(|&byte| byte == LF) {
            let line_of_theirs = theirs.next().unwrap_or(b"");
            if line_of_theirs == ours {
                continue;
            }
            let at = place_of_difference(ours, line_of_theirs);
            let mut report = format!("seed {seed}: difference at script line {}\n", place + 1);
            report += "calls before it:\n";
            let first = place.saturating_sub(SHOWN);
            for (number, before) in lines[first..place].iter().enumerate() {
                report += &format!("  {}: {}\n", first + number + 1, short(before));
            }
            report += &format!("the call:\n  {}: {}\n", place + 1, short(line));
            report += &format!("model   : {}\n", short(ours));
            report += &format!("program : {}\n", short(line_of_theirs));
            report += &format!("they differ from sign {} of the line on", at + 1);
            return Some(report);
        }
    }
    let rest: Vec<&[u8]> = theirs.filter(|line| !line.is_empty()).collect();
    rest.first()
        .map(|line| format!("seed {seed}: {} lines more than the model, the first: {}", rest.len(), short(line)))
}

/// Compares one listing of the program "list screen". With the word that chooses
/// the sister among the program's it is hers.
pub fn listing_differs(words: &[String], folder: &Folder, seed: u64) -> Option<String> {
    let sister = words.iter().any(|word| word == "--sister");
    let mut rng = generate::Dice::new(seed ^ 0x5C4EE, sister);
    let pieces = match rng.below(10) {
        0 => 0,
        1 => rng.between(100, 1500),
        _ => rng.between(1, 60),
    };
    let stream = generate::stream_of(&mut rng, pieces);
    let start = if sister { sister_power_on() } else { power_on() };
    let ours = crate::seen::listing(&start, &stream);
    let theirs = match run(words, folder, &stream) {
        Ok(theirs) => theirs,
        Err(why) => return Some(format!("seed {seed}: the program {why}")),
    };
    (ours.as_bytes() != theirs).then(|| {
        format!("seed {seed}: listing of {} bytes differs\nmodel:\n{ours}program:\n{}", stream.len(), short(&theirs))
    })
}

/// Counts over seeds; stops when the time is up.
pub fn over(
    seeds: std::ops::Range<u64>,
    seconds: Option<u64>,
    mut differs: impl FnMut(u64) -> Option<String>,
) -> (u64, u64) {
    let start = Instant::now();
    let (mut passed, mut failed) = (0, 0);
    for seed in seeds {
        if seconds.is_some_and(|limit| start.elapsed() >= Duration::from_secs(limit)) {
            break;
        }
        match differs(seed) {
            None => passed += 1,
            Some(report) => {
                println!("{report}\n");
                failed += 1;
                if failed >= 10 {
                    println!("ten failures, no more tried");
                    break;
                }
            }
        }
    }
    (passed, failed)
}

/// True if this names a file that can be run here (for a clear message).
pub fn looks_runnable(word: &str) -> bool {
    !word.contains('/') || Path::new(word).exists()
}
