//! The command `birdweekly`: scenarios read, explained, drawn and checked. `birdweekly --help` says how.

use std::ffi::{OsStr, OsString};
use std::fs::DirEntry;
use std::io::{self, IsTerminal, Write};
use std::path::Path;
use std::process::ExitCode;

use birdweekly::{Buffers, StockAnswer};
use birdweekly_cli::check::{check, Verdict};
use birdweekly_cli::draw::draw;
use birdweekly_cli::explain::{explain, COLOURS, NO_COLOURS};
use birdweekly_cli::forms::role_words;
use birdweekly_cli::listing::listing;
use birdweekly_cli::rehearsal::Rehearsal;
use birdweekly_cli::show::show;
use birdweekly_cli::source::{Source, Unread};
use birdweekly_cli::text::suggestion;

const HELP: &str = "\
birdweekly: rehearses DevID enrolment procedures and tells what came of them

  birdweekly explain FILE [--refused]  every command in words with its outcome and, where it is refused, what is missing;
                                       then the certificates with their paths, and what registers show (--refused:
                                       the refused commands alone)
  birdweekly draw FILE [-o OUT]        the certificates as a graph for Graphviz (dot -Tpng)
  birdweekly check FILES... [--json]   many files, or folders of them, on all processors: a line each, and a summary
  birdweekly assemble FILE [-o OUT]    a scenario's text as the bytes that the engine takes
  birdweekly show FILE [-o OUT]        a scenario's bytes as text
  birdweekly list FILE                 the listing in numbers: R ordinal number, I certificate parent depth, T accepted
                                       refused issued; F number place of a file that does not load
  birdweekly stock FILE DESK IAKS      the boards that the unused numbers of an OEM desk are still enough for,
                                       with so many IAKs a board

A FILE whose name ends in .scenario is text (docs/SCENARIOS.md), any other is bytes; - is standard input, which is
bytes. assemble takes text under any name. Without -o the result goes to standard output. Colours are for terminals alone.

Exit status: 0 a run with no refusal (assemble, show, stock: done); 1 some commands are refused; 2 a file that does
not load or cannot be read, or a call that is not as above. Messages go to standard error.
";

/// What ends a call without a result: messages for standard error, or output that nobody reads.
enum Failure {
    Messages(Vec<String>),
    Output(io::Error),
}

impl From<io::Error> for Failure {
    fn from(error: io::Error) -> Failure {
        Failure::Output(error)
    }
}

impl From<Unread> for Failure {
    fn from(unread: Unread) -> Failure {
        Failure::Messages(match unread {
            Unread::NoFile(message) => vec![format!("birdweekly: {message}")],
            mistakes => mistakes.told(),
        })
    }
}

fn failed<T>(message: impl Into<String>) -> Result<T, Failure> {
    Err(Failure::Messages(vec![message.into()]))
}

fn main() -> ExitCode {
    let words: Vec<OsString> = std::env::args_os().skip(1).collect();
    match call(&words) {
        Ok(status) => ExitCode::from(status),
        Err(Failure::Messages(messages)) => {
            for message in messages {
                eprintln!("{message}");
            }
            ExitCode::from(Verdict::NotLoaded.status())
        }
        Err(Failure::Output(error)) => {
            if error.kind() != io::ErrorKind::BrokenPipe {
                eprintln!("birdweekly: cannot write: {error}");
            }
            ExitCode::from(Verdict::NotLoaded.status())
        }
    }
}

/// A call's words after the first: flags, the output's name, and the rest.
struct Words {
    rest: Vec<OsString>,
    flag: bool,
    out: Option<OsString>,
}

/// Takes the words of a call that knows at most one flag, and -o or not.
fn words(given: &[OsString], flag: Option<&str>, takes_out: bool) -> Result<Words, Failure> {
    let mut found = Words { rest: Vec::new(), flag: false, out: None };
    let mut given = given.iter();
    let mut named = false;
    while let Some(word) = given.next() {
        let text = word.to_string_lossy();
        match &*text {
            "--" if !named => named = true,
            text if named || !text.starts_with('-') || text == "-" => found.rest.push(word.clone()),
            text if Some(text) == flag => found.flag = true,
            "-o" if takes_out => match given.next() {
                Some(out) => found.out = Some(out.clone()),
                None => return failed("birdweekly: -o wants the name of a file"),
            },
            text => return failed(format!("birdweekly: {text} is no option here; see birdweekly --help")),
        }
    }
    Ok(found)
}

fn one_file<'a>(words: &'a Words, name: &str) -> Result<&'a OsStr, Failure> {
    let [file] = &words.rest[..] else {
        return failed(format!("birdweekly: {name} wants one file; see birdweekly --help"));
    };
    if Path::new(file).is_dir() {
        return failed(format!("birdweekly: {} is a folder; check takes folders", file.to_string_lossy()));
    }
    let same = |out: &OsString| {
        Path::new(out).canonicalize().is_ok_and(|out| Path::new(file).canonicalize().is_ok_and(|file| file == out))
    };
    match &words.out {
        Some(out) if same(out) => failed(format!("birdweekly: {} is the file that is read", out.to_string_lossy())),
        _ => Ok(file),
    }
}

/// A call by its name, and what it takes beside files: a flag, and -o or not.
struct Call {
    name: &'static str,
    flag: Option<&'static str>,
    takes_out: bool,
    run: fn(&Words) -> Result<u8, Failure>,
}

const CALLS: [Call; 7] = [
    Call { name: "explain", flag: Some("--refused"), takes_out: false, run: explained },
    Call { name: "draw", flag: None, takes_out: true, run: drawn },
    Call { name: "check", flag: Some("--json"), takes_out: false, run: checked },
    Call { name: "assemble", flag: None, takes_out: true, run: assembled },
    Call { name: "show", flag: None, takes_out: true, run: shown },
    Call { name: "list", flag: None, takes_out: false, run: listed },
    Call { name: "stock", flag: None, takes_out: false, run: stocked },
];

fn call(given: &[OsString]) -> Result<u8, Failure> {
    let Some((first, rest)) = given.split_first() else {
        return failed(HELP.trim_end());
    };
    let first = first.to_string_lossy();
    let asks_help = |word: &OsString| word == "--help" || word == "-h";
    if first == "help" || given.iter().take_while(|word| *word != "--").any(asks_help) {
        give(HELP.as_bytes(), &None)?;
        return Ok(0);
    }
    if first == "--version" {
        give(concat!("birdweekly ", env!("CARGO_PKG_VERSION"), "\n").as_bytes(), &None)?;
        return Ok(0);
    }
    match CALLS.iter().find(|call| call.name == first) {
        Some(call) => (call.run)(&words(rest, call.flag, call.takes_out)?),
        None => {
            let alike = suggestion(&first, CALLS.iter().map(|call| call.name));
            let hint = alike.map_or("see birdweekly --help".into(), |alike| format!("did you mean {alike}?"));
            failed(format!("birdweekly: there is no {first}; {hint}"))
        }
    }
}

/// Writes a result to the file of -o, or to standard output.
fn give(bytes: &[u8], out: &Option<OsString>) -> Result<(), Failure> {
    match out {
        Some(path) => std::fs::write(path, bytes)
            .or_else(|error| failed(format!("birdweekly: cannot write {}: {error}", path.to_string_lossy()))),
        None => {
            let mut stdout = io::stdout().lock();
            stdout.write_all(bytes)?;
            Ok(stdout.flush()?)
        }
    }
}

/// A file that loads.
fn loaded(path: &OsStr, text: bool) -> Result<Source, Failure> {
    let source = Source::read(path, text)?;
    match &source.refused {
        Some(refused) => failed(source.told(refused)),
        None => Ok(source),
    }
}

/// A file that loads, with its run.
fn rehearsed(path: &OsStr) -> Result<(Source, Rehearsal), Failure> {
    let source = Source::read(path, false)?;
    match source.rehearsed() {
        Ok(rehearsal) => Ok((source, rehearsal)),
        Err(refused) => failed(source.told(&refused)),
    }
}

fn assembled(words: &Words) -> Result<u8, Failure> {
    let source = loaded(one_file(words, "assemble")?, true)?;
    if words.out.is_none() && io::stdout().is_terminal() {
        return failed("birdweekly: assemble gives bytes, which are not for a terminal; say -o OUT");
    }
    give(&source.bytes, &words.out)?;
    Ok(0)
}

fn shown(words: &Words) -> Result<u8, Failure> {
    let source = Source::read(one_file(words, "show")?, false)?;
    let Some(refused) = &source.refused else {
        give(show(&source.scenario, source.bytes.len()).as_bytes(), &words.out)?;
        return Ok(0);
    };
    let mut text = show(&source.scenario, refused.refusal.place as usize);
    text.push_str(&format!("\n# {refused}\n"));
    give(text.as_bytes(), &words.out)?;
    failed(source.told(refused))
}

fn explained(words: &Words) -> Result<u8, Failure> {
    let (source, rehearsal) = rehearsed(one_file(words, "explain")?)?;
    let dumb = std::env::var_os("TERM").is_some_and(|term| term == "dumb");
    let colour = io::stdout().is_terminal() && !dumb && std::env::var_os("NO_COLOR").is_none();
    let text = explain(&source, &rehearsal, words.flag, if colour { &COLOURS } else { &NO_COLOURS });
    give(text.as_bytes(), &None)?;
    Ok(Verdict::of(&rehearsal).status())
}

fn drawn(words: &Words) -> Result<u8, Failure> {
    let (source, rehearsal) = rehearsed(one_file(words, "draw")?)?;
    give(draw(&source.name, &source.scenario, &rehearsal).as_bytes(), &words.out)?;
    Ok(Verdict::of(&rehearsal).status())
}

/// A file that does not load is listed too, as "F number place".
fn listed(words: &Words) -> Result<u8, Failure> {
    let source = Source::read(one_file(words, "list")?, false)?;
    match source.rehearsed() {
        Ok(rehearsal) => {
            give(listing(&source.scenario, &rehearsal).as_bytes(), &None)?;
            Ok(Verdict::of(&rehearsal).status())
        }
        Err(refused) => {
            give(format!("F {} {}\n", refused.refusal.number, refused.refusal.place).as_bytes(), &None)?;
            failed(source.told(&refused))
        }
    }
}

/// A folder stands for the files in it and in its folders.
fn files_of(path: &OsStr, files: &mut Vec<OsString>) -> Result<(), Failure> {
    if !Path::new(path).is_dir() {
        files.push(path.into());
        return Ok(());
    }
    let unreadable = |error: io::Error| Unread::NoFile(format!("cannot read {}: {error}", path.to_string_lossy()));
    let entries: io::Result<Vec<DirEntry>> = std::fs::read_dir(path).map_err(unreadable)?.collect();
    let mut entries = entries.map_err(unreadable)?;
    entries.sort_by_key(|entry| entry.file_name());
    for entry in entries {
        let (path, is_link) = (entry.path(), entry.file_type().is_ok_and(|kind| kind.is_symlink()));
        // A link to a folder is left out: it may lead back.
        if !(is_link && path.is_dir()) {
            files_of(path.as_os_str(), files)?;
        }
    }
    Ok(())
}

fn checked(words: &Words) -> Result<u8, Failure> {
    let mut files = Vec::new();
    for path in &words.rest {
        files_of(path, &mut files)?;
    }
    if files.is_empty() {
        return failed("birdweekly: there are no files to check; see birdweekly --help");
    }
    Ok(check(&files, words.flag, &mut io::stdout().lock())?)
}

fn stocked(words: &Words) -> Result<u8, Failure> {
    let [file, desk, iaks] = &words.rest[..] else {
        return failed("birdweekly: stock wants a file, a desk and the IAKs per board; see birdweekly --help");
    };
    let (source, desk, iaks) = (loaded(file, false)?, desk.to_string_lossy(), iaks.to_string_lossy());
    let (file, names) = (&source.name, &source.scenario.party_names);
    let Some(party) = names.iter().position(|name| *name == desk) else {
        return failed(format!("birdweekly: {file} has no party {desk}; it has {}", names.join(", ")));
    };
    let Ok(per_board) = iaks.parse() else {
        return failed(format!("birdweekly: expected the IAKs per board, a number, found {iaks}"));
    };
    match Buffers::new().stock(&source.bytes, party as u8, per_board) {
        StockAnswer::Boards { boards, rest } => {
            give(format!("boards {boards}, numbers left over {rest}\n").as_bytes(), &None)?;
            Ok(0)
        }
        StockAnswer::Refused(refusal) => {
            let role = source.scenario.role(party as u8).map_or("", role_words);
            let why = if per_board == 0 {
                "the IAKs per board are 0".into()
            } else {
                format!("{desk} is {role}, no OEM desk")
            };
            failed(format!("{file}: {refusal}: {why}"))
        }
    }
}
