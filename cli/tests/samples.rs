//! Every sample, by the built command: its listing is the one that its comment has and the one that the proved program prints, its words
//! and its picture are there, and its exit status tells what became of it. `bind/program listing` makes the proved program.

use std::io::Write;
use std::path::{Path, PathBuf};
use std::process::{Command, Output, Stdio};

use birdweekly_cli::reasons::meaning;

/// The repository.
fn root() -> PathBuf {
    Path::new(env!("CARGO_MANIFEST_DIR")).join("..")
}

fn command(words: &[&str]) -> Output {
    let mut command = Command::new(env!("CARGO_BIN_EXE_birdweekly"));
    command.args(words).current_dir(root()).output().expect("the command runs")
}

fn text(bytes: &[u8]) -> String {
    String::from_utf8(bytes.to_vec()).expect("the command prints text")
}

fn samples() -> Vec<String> {
    let folder = std::fs::read_dir(root().join("samples")).expect("there are samples");
    let names = folder.map(|entry| entry.expect("a folder is read").file_name().to_string_lossy().into_owned());
    let mut names: Vec<String> = names.map(|name| format!("samples/{name}")).collect();
    names.sort();
    assert!(names.iter().all(|name| name.ends_with(".scenario")) && names.len() >= 28);
    names
}

/// The lines of a sample's comment below a heading, each behind "#   ".
fn block(sample: &str, heading: &str) -> Option<String> {
    let source = std::fs::read_to_string(root().join(sample)).expect("a sample is read");
    let below = source.split_once(&format!("# {heading}:\n"))?.1;
    let lines = below.lines().map_while(|line| line.strip_prefix("#   ")).map(|line| format!("{line}\n"));
    Some(lines.collect())
}

fn proved_listing(bytes: &[u8]) -> String {
    let program = root().join("target/bin/listing");
    let mut listing = Command::new(&program)
        .stdin(Stdio::piped())
        .stdout(Stdio::piped())
        .spawn()
        .unwrap_or_else(|error| panic!("{}: {error}; bind/program listing makes it", program.display()));
    listing.stdin.take().expect("it reads").write_all(bytes).expect("it reads all");
    text(&listing.wait_with_output().expect("it ends").stdout)
}

#[test]
fn samples_give_what_their_comments_say() {
    for sample in samples() {
        let Some(expected) = block(&sample, "Expected listing") else {
            let message = block(&sample, "Expected message").expect("a sample has a listing or a message");
            for call in ["assemble", "explain", "draw", "list"] {
                let found = command(&[call, &sample]);
                assert_eq!((text(&found.stderr), found.status.code()), (message.clone(), Some(2)), "{call} {sample}");
                assert!(found.stdout.is_empty());
            }
            continue;
        };
        let status = if expected.contains("R ") { 1 } else { 0 };
        let list = command(&["list", &sample]);
        assert_eq!(text(&list.stdout), expected, "{sample}");
        assert_eq!((list.status.code(), text(&list.stderr)), (Some(status), String::new()), "{sample}");

        let bytes = command(&["assemble", &sample]);
        assert_eq!((bytes.status.code(), text(&bytes.stderr)), (Some(0), String::new()), "{sample}");
        assert_eq!(proved_listing(&bytes.stdout), expected, "{sample}");

        // Shown with its own names and assembled again, it is the same file.
        let shown = command(&["show", &sample]);
        let again = birdweekly_cli::text::assemble(&text(&shown.stdout)).expect("what is shown is in order");
        assert_eq!(again.bytes, bytes.stdout, "{sample}");

        // explain has every refusal of the listing, and every certificate.
        let explained = command(&["explain", &sample]);
        assert_eq!(explained.status.code(), Some(status), "{sample}");
        let words = text(&explained.stdout);
        assert!(!words.contains('\x1b'), "colours are for terminals: {sample}");
        let numbers: Vec<&str> =
            words.lines().filter_map(|line| line.trim().split_once(": ").map(|(number, _)| number)).collect();
        for line in expected.lines() {
            let fields: Vec<&str> = line.split(' ').collect();
            match fields[0] {
                "R" => {
                    let found = words
                        .lines()
                        .any(|line| line.split_whitespace().next() == Some(fields[1]) && line.contains("REFUSED"));
                    assert!(found && numbers.contains(&fields[2]), "{sample}: {line}");
                }
                "I" => assert!(words.contains(&format!("(term {})", fields[1])), "{sample}: {line}"),
                _ => assert!(words.contains(&format!(" {} refused, ", fields[2])), "{sample}: {line}"),
            }
        }

        // draw has a node and an edge for every certificate.
        let drawn = command(&["draw", &sample]);
        assert_eq!(drawn.status.code(), Some(status), "{sample}");
        let graph = text(&drawn.stdout);
        for line in expected.lines().filter(|line| line.starts_with('I')) {
            let fields: Vec<&str> = line.split(' ').collect();
            assert!(graph.contains(&format!("t{} -> t{};", fields[1], fields[2])), "{sample}: {line}");
            assert!(graph.contains(&format!(", depth {}\"", fields[3])), "{sample}: {line}");
        }
    }
}

/// What is printed is held to stored files, whole: of every sample, and of a scenario with every refusal and every form of its reason.
/// With BIRDWEEKLY_EXPECTED=write they are written anew, to be read before they are kept.
#[test]
fn what_is_printed_is_as_stored() {
    let folder = root().join("cli/tests/expected");
    let write = std::env::var_os("BIRDWEEKLY_EXPECTED").is_some_and(|word| word == "write");
    let held = |name: &str, found: String| {
        let path = folder.join(name);
        if write {
            std::fs::write(&path, &found).expect("it is written");
        }
        let expected = std::fs::read_to_string(&path).unwrap_or_else(|error| panic!("{}: {error}", path.display()));
        for (found, expected) in found.lines().zip(expected.lines()) {
            assert_eq!(found, expected, "{name}");
        }
        assert_eq!(found, expected, "{name}");
    };
    let printed = |words: &[&str]| text(&command(words).stdout);
    let mut samples = samples();
    samples.push("cli/tests/every-refusal.scenario".into());
    for sample in &samples {
        let name = Path::new(sample).file_stem().expect("a name").to_string_lossy();
        held(&format!("{name}.explained"), printed(&["explain", sample]));
        held(&format!("{name}.dot"), printed(&["draw", sample]));
    }
    held("refused-alone.explained", printed(&["explain", "--refused", "samples/slip-ek-in-another-tpm.scenario"]));
    let samples: Vec<&str> = samples.iter().map(|sample| &sample[..]).collect();
    held("check.txt", printed(&[&["check"], &samples[..]].concat()));
    held("check.json", printed(&[&["check", "--json"], &samples[..]].concat()));
    // Every refusal is among them.
    let refusals = std::fs::read_to_string(folder.join("every-refusal.explained")).expect("it is read");
    for number in (13..=33).filter(|number| !matches!(number, 22 | 29 | 30)) {
        assert!(refusals.contains(&format!(" {number}: {}\n", meaning(number))), "{number}");
    }
}

/// -o writes what goes to standard output else.
#[test]
fn results_go_to_a_file_too() {
    let folder = Scratch::new("out");
    for call in ["assemble", "show", "draw"] {
        let (sample, out) = ("samples/honest-lak.scenario", folder.path(call));
        let written = command(&[call, sample, "-o", &out]);
        assert_eq!((written.status.code(), written.stdout.is_empty()), (Some(0), true), "{call}");
        assert_eq!(std::fs::read(&out).expect("it is written"), command(&[call, sample]).stdout, "{call}");
    }
}

#[test]
fn the_stock_is_that_of_the_sample() {
    let sample = "samples/request-12-stock.scenario";
    let stock = |desk: &str, iaks: &str| {
        let found = command(&["stock", sample, desk, iaks]);
        (text(&found.stdout), found.status.code())
    };
    assert_eq!(stock("oem", "2"), ("boards 2, numbers left over 0\n".into(), Some(0)));
    assert_eq!(stock("oem", "3"), ("boards 1, numbers left over 1\n".into(), Some(0)));
    for (desk, iaks) in [("oem", "0"), ("board", "2"), ("nobody", "2"), ("oem", "two"), ("oem", "4294967296")] {
        assert_eq!(stock(desk, iaks), (String::new(), Some(2)), "{desk} {iaks}");
    }
}

#[test]
fn check_tells_every_file_in_order() {
    let samples = samples();
    let found = command(&["check", "samples"]);
    assert_eq!(found.status.code(), Some(2), "the sample with the mistake");
    let lines: Vec<String> = text(&found.stdout).lines().map(String::from).collect();
    assert_eq!(lines.len(), samples.len() + 1);
    for (line, sample) in lines.iter().zip(&samples) {
        assert!(line.starts_with(&format!("{sample}: ")), "{line}");
    }
    assert!(found.stderr.is_empty(), "no bar where there is no terminal");
    let honest: Vec<&str> =
        samples.iter().map(|sample| &sample[..]).filter(|sample| sample.contains("honest")).collect();
    assert_eq!(command(&[&["check"], &honest[..]].concat()).status.code(), Some(0));
    assert_eq!(command(&[&["check", "samples/example.scenario"], &honest[..]].concat()).status.code(), Some(1));
    assert_eq!(command(&["check", "no-such-file"]).status.code(), Some(2));
}

#[test]
fn json_has_an_object_a_line() {
    let found = text(&command(&["check", "--json", "samples"]).stdout);
    let lines: Vec<&str> = found.lines().collect();
    assert_eq!(lines.len(), samples().len() + 1);
    for line in &lines {
        assert_eq!(json(line.as_bytes(), 0), line.len(), "{line}");
    }
    let slip = lines.iter().find(|line| line.contains("slip-number-used-twice")).expect("it is there");
    assert!(slip.contains("\"verdict\":\"refusals\",\"accepted\":7,\"refused\":1,\"issued\":0"), "{slip}");
    assert!(slip.contains("\"command\":7,") && slip.contains("\"number\":24,"), "{slip}");
    assert!(lines.last().is_some_and(|line| line.starts_with("{\"summary\":")));
}

/// Where the JSON value that begins at a place ends; panics where there is none.
fn json(bytes: &[u8], at: usize) -> usize {
    match bytes[at] {
        b'{' | b'[' => {
            let end = if bytes[at] == b'{' { b'}' } else { b']' };
            let mut at = at + 1;
            if bytes[at] == end {
                return at + 1;
            }
            loop {
                if end == b'}' {
                    assert_eq!(bytes[at], b'"');
                    at = json(bytes, at);
                    assert_eq!(bytes[at], b':');
                    at += 1;
                }
                at = json(bytes, at);
                match bytes[at] {
                    b',' => at += 1,
                    last => {
                        assert_eq!(last, end);
                        return at + 1;
                    }
                }
            }
        }
        b'"' => {
            let mut at = at + 1;
            while bytes[at] != b'"' {
                assert!(bytes[at] >= 0x20);
                at += if bytes[at] == b'\\' { 2 } else { 1 };
            }
            at + 1
        }
        digit => {
            assert!(digit.is_ascii_digit());
            at + bytes[at..].iter().take_while(|byte| byte.is_ascii_digit()).count()
        }
    }
}

#[test]
fn calls_that_are_wrong_are_told() {
    for words in [
        &["explain"][..],
        &["explode", "x"],
        &["show", "--json", "x"],
        &["assemble", "a", "b"],
        &["draw", "x", "-o"],
        &[],
    ] {
        let found = command(words);
        assert_eq!(found.status.code(), Some(2), "{words:?}");
        assert!(found.stdout.is_empty() && !found.stderr.is_empty(), "{words:?}");
    }
    let help = command(&["--help"]);
    assert!(help.status.success() && help.stderr.is_empty() && text(&help.stdout).contains("Exit status"));
    for (words, message) in [
        (&["explain", "no-such-file"][..], "birdweekly: cannot read no-such-file: "),
        (&["explain", "samples"], "birdweekly: samples is a folder; check takes folders"),
        (&["explan", "samples/example.scenario"], "birdweekly: there is no explan; did you mean explain?"),
        (&["assemble", "samples/example.scenario", "-o", "cli/../samples/example.scenario"], "birdweekly: cli/../samples/example.scenario is the file that is read"),
        (&["explain", "README.md"], "README.md: refused with 3 at place 0, unknown kind: 23 hex is the kind of no record; it looks like text, and is read as bytes"),
        (&["stock", "samples/request-12-stock.scenario", "board", "2"], "samples/request-12-stock.scenario: refused with 39 at 0: board is a device, no OEM desk"),
        (&["stock", "samples/request-12-stock.scenario", "oem", "0"], "samples/request-12-stock.scenario: refused with 39 at 0: the IAKs per board are 0"),
    ] {
        let found = command(words);
        assert_eq!(found.status.code(), Some(2), "{words:?}");
        assert!(text(&found.stderr).starts_with(message), "{words:?}: {}", text(&found.stderr));
    }
}

/// Folders are gone through to their ends, and a run over nothing is no success.
#[test]
fn folders_are_checked_whole() {
    let folder = Scratch::new("folders");
    assert_eq!(command(&["check", &folder.path("")]).status.code(), Some(2));
    std::fs::create_dir_all(folder.path("inner/most")).expect("there is room");
    std::fs::copy(root().join("samples/honest-iak.scenario"), folder.path("inner/most/honest.scenario"))
        .expect("it is copied");
    std::fs::write(folder.path("inner/empty.scenario"), "# nothing\r").expect("it is written");
    let found = command(&["check", &folder.path("")]);
    let lines: Vec<String> = text(&found.stdout).lines().map(String::from).collect();
    assert_eq!(found.status.code(), Some(0));
    assert!(
        lines[0].ends_with("inner/empty.scenario: 0 accepted, 0 refused, 0 issued; there are no commands"),
        "{lines:?}"
    );
    assert!(lines[1].ends_with("inner/most/honest.scenario: 9 accepted, 0 refused, 1 issued"), "{lines:?}");
    assert_eq!(lines[2], "2 files: 2 with no refusal, 0 with refused commands, 0 not loaded");
    std::os::unix::fs::symlink(folder.path("inner"), folder.path("inner/most/round")).expect("it is linked");
    assert_eq!(command(&["check", &folder.path("")]).status.code(), Some(0));
    std::os::unix::fs::symlink("nowhere", folder.path("inner/broken.scenario")).expect("it is linked");
    assert_eq!(command(&["check", &folder.path("")]).status.code(), Some(2));
}

/// A folder of its own, removed at the end.
struct Scratch(PathBuf);

impl Scratch {
    fn new(name: &str) -> Scratch {
        let folder = std::env::temp_dir().join(format!("birdweekly-{name}-{}", std::process::id()));
        std::fs::create_dir_all(&folder).expect("there is room");
        Scratch(folder)
    }

    fn path(&self, name: &str) -> String {
        self.0.join(name).to_str().expect("a path").to_string()
    }
}

impl Drop for Scratch {
    fn drop(&mut self) {
        let _ = std::fs::remove_dir_all(&self.0);
    }
}

#[test]
fn a_file_that_does_not_load_is_shown_up_to_there() {
    let folder = Scratch::new("shown");
    let path = &folder.path("cut.bin");
    // A device, a public key, a signature that names no term.
    std::fs::write(path, [0x01, 0, 0x10, 0, 5, 0x0B, 0x13, 0, 0, 0, 9, 0x30]).expect("it is written");
    let found = command(&["show", path]);
    let shown = text(&found.stdout);
    assert_eq!(found.status.code(), Some(2));
    assert!(
        shown.contains("party device0 device\n") && shown.contains("ak5 = public-key 5 restricted+sign+fixedtpm"),
        "{shown}"
    );
    assert!(!shown.contains("signature of"), "{shown}");
    let words = "refused with 7 at place 6, field out of range, undeclared or not lower: field 2 of 2: term 9 is not declared before; there are 1";
    assert!(shown.ends_with(&format!("# {words}\n")), "{shown}");
    assert_eq!(text(&found.stderr), format!("{path}: {words}\n"));
    assert_eq!(text(&command(&["list", path]).stdout), "F 7 6\n");
}
