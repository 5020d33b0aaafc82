//! Many files, run on all processors: a line each in the order of the files, and a summary.

use std::collections::BTreeMap;
use std::ffi::{OsStr, OsString};
use std::io::{self, IsTerminal, Write};
use std::sync::atomic::{AtomicUsize, Ordering};
use std::sync::mpsc;
use std::thread;
use std::time::{Duration, Instant};

use crate::faults;
use crate::json;
use crate::reasons::meaning;
use crate::rehearsal::Rehearsal;
use crate::source::{Refused, Source, Unread};
use crate::words::count;

/// What became of a file. In order of their exit statuses: 0, 1, 2.
#[derive(Clone, Copy, Debug, PartialEq, Eq)]
pub enum Verdict {
    NoRefusal,
    Refusals,
    NotLoaded,
}

impl Verdict {
    pub fn of(rehearsal: &Rehearsal) -> Verdict {
        if rehearsal.refused == 0 {
            Verdict::NoRefusal
        } else {
            Verdict::Refusals
        }
    }

    pub fn status(self) -> u8 {
        self as u8
    }

    fn words(self) -> &'static str {
        ["no refusal", "refusals", "not loaded"][self as usize]
    }
}

/// The bar's width, and how long it stands before it is drawn again.
const BAR: usize = 20;
const BETWEEN_BARS: Duration = Duration::from_millis(50);

struct Checked {
    verdict: Verdict,
    line: String,
}

/// Checks files; the greatest of their exit statuses. A bar tells how far it is where standard error is a terminal.
pub fn check(files: &[OsString], as_json: bool, out: &mut impl Write) -> io::Result<u8> {
    let bar = io::stderr().is_terminal();
    let next = AtomicUsize::new(0);
    let (sender, receiver) = mpsc::channel();
    let workers = thread::available_parallelism().map_or(1, |n| n.get()).min(files.len().max(1));
    let mut totals = [0usize; 3];
    thread::scope(|scope| {
        for _ in 0..workers {
            let (sender, next) = (sender.clone(), &next);
            scope.spawn(move || loop {
                let i = next.fetch_add(1, Ordering::Relaxed);
                let Some(file) = files.get(i) else { return };
                if sender.send((i, checked(file, as_json))).is_err() {
                    return;
                }
            });
        }
        drop(sender);
        let mut waiting = BTreeMap::new();
        let mut lines = String::new();
        let (mut printed, mut done, mut drawn) = (0, 0, Instant::now());
        print(&mut lines, bar.then_some((done, files.len())), out)?;
        for (i, result) in receiver {
            waiting.insert(i, result);
            done += 1;
            while let Some(Checked { verdict, line }) = waiting.remove(&printed) {
                totals[verdict as usize] += 1;
                printed += 1;
                lines.push_str(&line);
                lines.push('\n');
            }
            if drawn.elapsed() >= BETWEEN_BARS {
                print(&mut lines, bar.then_some((done, files.len())), out)?;
                drawn = Instant::now();
            }
        }
        print(&mut lines, None, out)
    })?;
    let [clean, refusals, not_loaded] = totals;
    if as_json {
        let number = |n: usize| Some(n.to_string());
        let counts = [
            ("files", number(files.len())),
            ("no_refusal", number(clean)),
            ("refusals", number(refusals)),
            ("not_loaded", number(not_loaded)),
        ];
        writeln!(out, "{}", json::object(&[("summary", Some(json::object(&counts)))]))?;
    } else {
        let all = count(files.len(), "file");
        writeln!(out, "{all}: {clean} with no refusal, {refusals} with refused commands, {not_loaded} not loaded")?;
    }
    let worst = (0..3u8).rev().find(|status| totals[*status as usize] > 0);
    Ok(worst.unwrap_or(0))
}

/// Prints lines, then the bar for so many files of all; the bar that stood there is wiped away first.
fn print(lines: &mut String, bar: Option<(usize, usize)>, out: &mut impl Write) -> io::Result<()> {
    if io::stderr().is_terminal() {
        eprint!("\r\x1b[K");
    }
    out.write_all(lines.as_bytes())?;
    out.flush()?;
    lines.clear();
    if let Some((done, files)) = bar {
        let full = BAR * done / files.max(1);
        eprint!("[{}{}] {done} of {files}", "#".repeat(full), ".".repeat(BAR - full));
    }
    Ok(())
}

fn checked(path: &OsStr, as_json: bool) -> Checked {
    let file = &path.to_string_lossy();
    let source = match Source::read(path, false) {
        Ok(source) => source,
        Err(unread) => {
            let line = if as_json { unread_json(file, &unread) } else { unread_line(file, &unread) };
            return Checked { verdict: Verdict::NotLoaded, line };
        }
    };
    let rehearsal = match source.rehearsed() {
        Ok(rehearsal) => rehearsal,
        Err(refused) => {
            let line = if as_json { refused_json(&source, &refused) } else { refused_line(&source, &refused) };
            return Checked { verdict: Verdict::NotLoaded, line };
        }
    };
    let verdict = Verdict::of(&rehearsal);
    let line = if as_json { ran_json(&source, &rehearsal) } else { ran_line(&source, &rehearsal) };
    Checked { verdict, line }
}

fn unread_line(file: &str, unread: &Unread) -> String {
    let message = match unread {
        Unread::NoFile(message) => message.clone(),
        Unread::Mistakes { mistakes, .. } => {
            let more = mistakes.len() - 1;
            let more = if more == 0 { String::new() } else { format!(" (and {} more)", count(more, "mistake")) };
            mistakes.first().map_or(String::new(), |first| format!("line {}: {}{more}", first.line, first.message))
        }
    };
    format!("{file}: not loaded: {message}")
}

/// "line 7: ", where there is a line.
fn at_line(line: Option<usize>) -> String {
    line.map_or(String::new(), |line| format!("line {line}: "))
}

fn refused_line(source: &Source, refused: &Refused) -> String {
    format!("{}: not loaded: {}{refused}", source.name, at_line(source.refused_line(refused)))
}

fn ran_line(source: &Source, rehearsal: &Rehearsal) -> String {
    let (accepted, refused, issued) = (rehearsal.accepted, rehearsal.refused, rehearsal.after().ledger().count());
    let first = rehearsal.refusals(&source.scenario).next().map(|(i, command, reason)| {
        let (line, name) = (at_line(source.line(command.place)), command.form().name);
        format!("; first: {line}command {i}, {name}, {} ({})", reason.number, meaning(reason.number))
    });
    let note =
        if source.scenario.commands.is_empty() { "; there are no commands".into() } else { first.unwrap_or_default() };
    format!("{}: {accepted} accepted, {refused} refused, {issued} issued{note}", source.name)
}

/// The first two fields of every file's object.
fn of_file(file: &str, verdict: Verdict) -> [(&'static str, Option<String>); 2] {
    [("file", Some(json::string(file))), ("verdict", Some(json::string(verdict.words())))]
}

fn number(n: impl ToString) -> Option<String> {
    Some(n.to_string())
}

fn unread_json(file: &str, unread: &Unread) -> String {
    let rest = match unread {
        Unread::NoFile(message) => ("error", Some(json::string(message))),
        Unread::Mistakes { mistakes, .. } => {
            let each = mistakes.iter().map(|mistake| {
                let message = Some(json::string(&mistake.message));
                json::object(&[
                    ("line", number(mistake.line)),
                    ("column", number(mistake.column + 1)),
                    ("message", message),
                ])
            });
            ("mistakes", Some(json::array(each)))
        }
    };
    json::object(&[&of_file(file, Verdict::NotLoaded)[..], &[rest]].concat())
}

fn refused_json(source: &Source, refused: &Refused) -> String {
    let rest = [
        ("number", number(refused.refusal.number)),
        ("place", number(refused.refusal.place)),
        ("line", source.refused_line(refused).and_then(number)),
        ("reason", Some(json::string(faults::meaning(refused.refusal.number)))),
        ("details", Some(json::array([json::string(&refused.words)].into_iter()))),
    ];
    json::object(&[&of_file(&source.name, Verdict::NotLoaded)[..], &rest].concat())
}

fn ran_json(source: &Source, rehearsal: &Rehearsal) -> String {
    let scenario = &source.scenario;
    let refusals = rehearsal.refusals(scenario).map(|(i, command, reason)| {
        json::object(&[
            ("command", number(i)),
            ("place", number(command.place)),
            ("line", source.line(command.place).and_then(number)),
            ("name", Some(json::string(command.form().name))),
            ("party", Some(json::string(scenario.party_name(command.party(0))))),
            ("number", number(reason.number)),
            ("reason", Some(json::string(meaning(reason.number)))),
            ("details", Some(json::array(reason.details.iter().map(|detail| json::string(detail))))),
        ])
    });
    let issued = rehearsal.issued(scenario);
    let ledger = issued.iter().map(|one| {
        json::object(&[
            ("certificate", Some(json::string(scenario.term_name_of(one.entry.certificate)))),
            ("term", number(one.entry.certificate)),
            ("family", Some(json::string(one.family))),
            ("subject", Some(json::string(&scenario.subject_of(one.entry.certificate)))),
            ("depth", number(one.entry.depth)),
            ("path", Some(json::array(one.path.iter().map(|t| json::string(scenario.term_name_of(*t)))))),
        ])
    });
    let rest = [
        ("accepted", number(rehearsal.accepted)),
        ("refused", number(rehearsal.refused)),
        ("issued", number(issued.len())),
        ("refusals", Some(json::array(refusals))),
        ("ledger", Some(json::array(ledger))),
    ];
    json::object(&[&of_file(&source.name, Verdict::of(rehearsal))[..], &rest].concat())
}
