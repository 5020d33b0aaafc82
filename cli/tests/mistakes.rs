//! Mistakes in a scenario's text are told with their line and what was expected there.

use birdweekly_cli::forms::KINDS;
use birdweekly_cli::source::Source;
use birdweekly_cli::text::assemble;
use birdweekly_cli::{faults, reasons};

/// Lines that are in order, numbered 1 to 12; the mistakes below stand on line 13.
const START: &str = "\
party board device
party maker tpm-maker
party oem oem-desk
key = public-key 1 restricted+sign+fixedtpm
key-private = private-key 1 restricted+sign+fixedtpm
maker-private = private-key 2 sign+fixedtpm
digest = hash of key
proof = signature of digest by key-private
nonce = number 7
board holds key-private
maker holds maker-private
maker signs-with maker-private
";

/// A line, the column of its mistake, and what is said.
const MISTAKES: [(&str, usize, &str); 59] = [
    ("digest2 = hsh of key", 10, "expected a kind of term (public-key, private-key, hash, signature, attest, credential, number, idevid-request, ldevid-request, certificate, pair, register or quote-body), found \"hsh\". Did you mean \"hash\"?"),
    ("digest2 = ", 9, "expected a kind of term (public-key, private-key, hash, signature, attest, credential, number, idevid-request, ldevid-request, certificate, pair, register or quote-body), found the end of the line"),
    ("digest2 = hash key", 15, "expected \"of\", found \"key\""),
    ("digest2 = hash of", 17, "expected the name of a term, found the end of the line"),
    ("digest2 = hash of kye", 18, "expected the name of a term; \"kye\" is not declared. Did you mean \"key\"?"),
    ("digest2 = hash of board", 18, "expected the name of a term; \"board\" is a party (line 1)"),
    ("digest2 = hash of below\nbelow = number 8", 18, "expected the name of a term; \"below\" is declared below, on line 14; a name is used after its line"),
    ("digest2 = hash of key key", 22, "expected the end of the line, found \"key\""),
    ("digest2 = hash of digest2", 18, "expected the name of a term; \"digest2\" is declared by this line, and used after it alone"),
    ("k2 = public-key 7 restricted, sign", 28, "attributes are joined by + with no space or comma, such as restricted+sign"),
    ("k2 = public-key 7 restricted + sign", 29, "attributes are joined by + with no space or comma, such as restricted+sign"),
    ("n2: number 77", 2, "expected \"=\" between the name and its term, found \":\""),
    ("board: learns key", 5, "expected no \":\" here: what follows is set-up, not a command"),
    ("board = hash digest", 0, "\"board\" is a party (line 1); its commands stand behind \":\""),
    ("party = hash of key", 0, "\"party\" begins the line of a party and is no name"),
    (": hash digest", 0, "expected the name of a party before the \":\", found \":\""),
    ("= number 8", 0, "expected a name before the \"=\", found \"=\""),
    ("k2 := public-key 7 sign", 3, "expected \"=\" between the name and its term, found \":=\""),
    ("p2 = signature of digest by kez-private\nkex-private = private-key 7 sign", 28, "expected a private key; \"kez-private\" is not declared. Did you mean \"key-private\"?"),
    ("digest = hash of nonce", 0, "\"digest\" is declared already, on line 7"),
    ("oem = hash of nonce", 0, "\"oem\" is a party (line 3); its commands stand behind \":\""),
    ("7up = hash of nonce", 0, "expected a name (a letter, then letters, digits, - _ . and '), found \"7up\""),
    ("p2 = signature of digest by key", 28, "expected a private key; \"key\" is a public key (line 4); its other half is \"key-private\""),
    ("p2 = signature of digest by key-privat", 28, "expected a private key; \"key-privat\" is not declared. Did you mean \"key-private\"?"),
    ("k2 = public-key 70000 sign", 16, "expected a number from 0 to 65535, found \"70000\""),
    ("k2 = public-key +7 sign", 16, "expected a number from 0 to 65535, found \"+7\""),
    ("k2 = public-key 7 sign+restrictd", 18, "expected attributes (none, or a sum such as restricted+sign+fixedtpm of restricted, sign, decrypt and fixedtpm), found \"sign+restrictd\". Did you mean \"restricted\"?"),
    ("k2 = public-key 7 sign+sign", 18, "expected attributes (none, or a sum such as restricted+sign+fixedtpm of restricted, sign, decrypt and fixedtpm), found \"sign+sign\". \"sign\" stands there twice"),
    ("c = certificate of key for board 1 by maker-private", 27, "expected a Subject (device or tpm, then a number), found \"board\""),
    ("c = certificate of key for device by maker-private", 34, "expected a number from 0 to 65535, found \"by\""),
    ("party other devise", 12, "expected a role (device, tpm-maker, oem-desk or owner-desk), found \"devise\". Did you mean \"device\"?"),
    ("party", 5, "expected a name (a letter, then letters, digits, - _ . and '), found the end of the line"),
    ("party party device", 6, "expected a name (a letter, then letters, digits, - _ . and '), found \"party\""),
    ("board lerns key", 6, "expected \"learns\", \"holds\" or \"signs-with\" after the party, or \":\" and a command, found \"lerns\". Did you mean \"learns\"?"),
    ("bord learns key", 0, "expected the name of a party; \"bord\" is not declared. Did you mean \"board\"?"),
    ("board hash digest", 6, "expected \":\" between the party and its command, found \"hash\""),
    ("digest2 hash of key", 8, "expected \"=\" between the name and its term, found \"hash\""),
    ("what is this", 0, "expected \"party NAME ROLE\", \"NAME = TERM\", \"PARTY learns TERM\" or \"PARTY: COMMAND\", found \"what\""),
    ("board: hahs digest", 7, "expected a command (hash, sign, certify, make-credential, activate-credential, make-idevid-request, make-ldevid-request, make-pair, check-hash, check-signature, check-certificate, check-attributes, send, self-issue, challenge, issue-iak, issue-lak, issue-idevid, issue-ldevid, issue-iaks, extend or quote), found \"hahs\". Did you mean \"hash\"?"),
    ("board: hash proof", 12, "expected a hash; \"proof\" is a signature (line 8)"),
    ("board: certify proof", 15, "expected a signature of an attest; \"proof\" is a signature (line 8)"),
    ("board: send key", 15, "expected \"to\", found the end of the line"),
    ("board: send key to digest", 19, "expected the name of a party; \"digest\" is a term, a hash (line 7)"),
    ("oem: issue-iaks -, -, -, -, - returned-by board", 26, "expected \"returned-by\" after four pairs, found \",\""),
    ("oem: issue-iaks key for nonce returned-by board", 16, "expected a certificate; \"key\" is a public key (line 4)"),
    ("boot = register 24", 16, "expected a register from 0 to 23, found \"24\""),
    ("boot = register key", 16, "expected a register from 0 to 23, found \"key\""),
    ("boot = register", 15, "expected a register from 0 to 23, found the end of the line"),
    ("body = quote-body of digest in register 300 with nonce", 40, "expected a register from 0 to 23, found \"300\""),
    ("body = quote-body of digest in 0 with nonce", 31, "expected \"register\", found \"0\""),
    ("body = quote-body of digest in register 0 with key", 47, "expected a number; \"key\" is a public key (line 4)"),
    ("board: extend register 24 to digest", 23, "expected a register from 0 to 23, found \"24\""),
    ("board: extend register 0 to digest", 28, "expected a hash of a pair; \"digest\" is a hash (line 7)"),
    ("board: extend register 0 to proof", 28, "expected a hash of a pair; \"proof\" is a signature (line 8)"),
    ("board: quote proof", 13, "expected a signature of a quote body; \"proof\" is a signature (line 8)"),
    ("digest2 = hash of key", 0, "refused with 9 at place 29, term alike an earlier one: the same term as digest (term 3); a file has each term once"),
    ("oem learns digest", 0, "refused with 10 at place 41, set-up 20 (learns) not allowed: oem may not learn digest at set-up: it is a hash; only public keys, numbers and certificates of TPMs are given at set-up"),
    ("oem holds maker-private", 0, "refused with 11 at place 41, set-up 21 (holds) not allowed: maker-private has fixedtpm, so that one TPM alone may hold it, and that of maker does"),
    ("oem signs-with maker-private", 0, "refused with 12 at place 41, set-up 22 (signs-with) not allowed: oem may not sign with maker-private: no line before says that oem holds it"),
];

fn told(text: &str) -> Option<String> {
    match Source::of_text("x.scenario", text.as_bytes().to_vec()) {
        Ok(source) => source.refused.as_ref().map(|refused| source.told(refused)),
        Err(unread) => unread.told().first().cloned(),
    }
}

#[test]
fn the_start_is_in_order() {
    assert_eq!(told(START), None);
}

#[test]
fn mistakes_are_told_with_their_lines() {
    for (line, column, message) in MISTAKES {
        let text = format!("{START}{line}\n");
        let told = told(&text).unwrap_or_else(|| panic!("{line}: no mistake was found"));
        let lines: Vec<&str> = told.lines().collect();
        assert_eq!(lines[0], format!("x.scenario:13: {message}"), "{line}");
        assert_eq!(lines[1].trim_start(), line.lines().next().unwrap_or("").trim_start(), "{line}");
        assert_eq!(lines[2].find('^'), Some(4 + column), "{line}\n{told}");
    }
}

#[test]
fn one_mistake_is_not_told_of_the_lines_below_it() {
    let text = START.replace("hash of key", "hash off key");
    let Err(mistakes) = assemble(&text) else { panic!("there is a mistake") };
    assert_eq!(mistakes.len(), 1, "{mistakes:?}");
    assert_eq!((mistakes[0].line, mistakes[0].column, mistakes[0].width), (7, 14, 3));
    // Nor of the terms below, which keep their numbers, nor of what is made of the one with the mistake.
    let more = "of-key = attest of key\nattested = signature of of-key by key-private\nboard: certify attested\n";
    for (right, wrong, line) in [("hash of key", "hash off key", 7), ("attest of key", "attest off key", 13)] {
        let text = format!("{START}{more}").replace(right, wrong);
        let Err(mistakes) = assemble(&text) else { panic!("there is a mistake") };
        assert_eq!(mistakes.iter().map(|mistake| mistake.line).collect::<Vec<_>>(), [line], "{mistakes:?}");
    }
}

/// A line that is no record may have been meant to declare any of its words.
#[test]
fn a_line_that_is_no_record_is_told_once() {
    for line in ["prty maker tpm-maker", "Party maker tpm-maker", "maker", "maker = tpm-maker"] {
        let text = START.replace("party maker tpm-maker", line);
        let Err(mistakes) = assemble(&text) else { panic!("there is a mistake") };
        assert_eq!(mistakes.iter().map(|mistake| mistake.line).collect::<Vec<_>>(), [2], "{mistakes:?}");
    }
}

#[test]
fn layout_says_nothing() {
    let plain = assemble(START).expect("it is in order").bytes;
    let spaced = START.replace('\n', "   # a comment\r\n\r\n\t").replace(" = ", "=");
    let old = START.replace('\n', "\r").into_bytes();
    assert_eq!(Source::of_text("x.scenario", old).ok().expect("it is in order").bytes, plain);
    let marked = format!("\u{FEFF}{spaced}").into_bytes();
    assert_eq!(Source::of_text("x.scenario", marked).ok().expect("it is in order").bytes, plain);
    // Sections among each other, each in its own order.
    let lines: Vec<&str> = START.lines().collect();
    let (parties, rest) = lines.split_at(3);
    let (terms, setup) = rest.split_at(6);
    let mixed = [&parties[..1], &terms[..2], &setup[..1], &parties[1..], &terms[2..], &setup[1..]].concat().join("\n");
    assert_eq!(assemble(&mixed).expect("it is in order").bytes, plain);
}

/// One character of a sample put in, taken out or changed: a mistake is told of that line or of one below it, or the text is in order still.
#[test]
fn damaged_texts_are_told() {
    let folder = std::path::Path::new(env!("CARGO_MANIFEST_DIR")).join("../samples");
    let names = [
        "honest-lak.scenario",
        "slip-ek-in-another-tpm.scenario",
        "request-04-all-iaks-together.scenario",
        "request-06-old-quote-replayed.scenario",
    ];
    let (mut told_of, mut in_order) = (0, 0);
    for name in names {
        let text = std::fs::read_to_string(folder.join(name)).expect("a sample is read");
        let mut rng = worlds::Rng::new(1, 77);
        for _ in 0..1_000 {
            let mut letters: Vec<char> = text.chars().collect();
            let at = rng.below(letters.len());
            let letter = rng.pick(&['a', 'e', 'x', '7', ' ', '-', '=', ':', ',', '#', '+', '\n', '\t', 'é']);
            match rng.below(3) {
                0 => letters.insert(at, letter),
                1 => letters[at] = letter,
                _ => {
                    letters.remove(at);
                }
            }
            let line = 1 + letters[..at].iter().filter(|letter| **letter == '\n').count();
            match told(&letters.iter().collect::<String>()) {
                Some(told) => {
                    let number = told.strip_prefix("x.scenario:").and_then(|rest| rest.split(':').next());
                    let number: usize =
                        number.and_then(|number| number.parse().ok()).unwrap_or_else(|| panic!("{told}"));
                    assert!(number >= line, "{name}, line {line}: {told}");
                    told_of += 1;
                }
                None => in_order += 1,
            }
        }
    }
    assert!(told_of > 1_000 && in_order > 300, "{told_of} {in_order}");
}

/// In bytes: a register above 23 in each field that takes one, and what is no result of an extend or a quote.
#[test]
fn registers_and_results_of_another_form_are_told() {
    // A device; terms 0 to 4: a number, register 0, a pair of both, its hash, the hash of the number.
    let start = [1, 0, 0x16, 0, 7, 0x1B, 0, 0x1A, 0, 1, 0, 0, 0x12, 0, 2, 0x12, 0, 0];
    let cases: [(&[u8], Option<&str>); 10] = [
        (&[0x1B, 23, 0x1C, 23, 0, 5, 0, 0, 0x44, 0, 23, 0, 3], None),
        (&[0x1B, 24], Some("7 1 of 1: 24 is no register; registers are 0 to 23")),
        (&[0x1C, 24, 0, 1, 0, 0], Some("7 1 of 3: 24 is no register; registers are 0 to 23")),
        (&[0x1C, 0, 0, 9, 0, 0], Some("7 2 of 3: term 9 is not declared before; there are 5")),
        (&[0x1C, 0, 0, 1, 0, 1], Some("8 3 of 3: register0 is a register; a number is called for")),
        (&[0x44, 0, 255, 0, 3], Some("7 2 of 3: 255 is no register; registers are 0 to 23")),
        (&[0x44, 0, 0, 0, 4], Some("8 3 of 3: hash4 is a hash of number7, a number; a hash of a pair is called for")),
        (&[0x44, 0, 0, 0, 2], Some("8 3 of 3: pair2 is a pair; a hash is called for")),
        (&[0x11, 0, 1, 3, 0x13, 0, 1, 0, 5, 0x45, 0, 0, 6], Some("8 2 of 2: signature6 is a signature of register0, a register; a signature of a quote body is called for")),
        (&[0x45, 0, 0, 3], Some("8 2 of 2: hash3 is a hash; a signature is called for")),
    ];
    for (rest, words) in cases {
        let source = Source::of_bytes("x", [&start[..], rest].concat());
        let told = source
            .refused
            .map(|refused| format!("{} {}", refused.refusal.number, refused.words.trim_start_matches("field ")));
        assert_eq!(told.as_deref(), words, "{rest:?}");
    }
}

#[test]
fn other_bytes_are_no_text() {
    let told = match Source::of_text("x.scenario", vec![b'#', b'\n', 0xFF, 0x01]) {
        Err(unread) => unread.told(),
        Ok(_) => panic!("it is no text"),
    };
    assert_eq!(told, ["x.scenario:2: expected text, found the byte FF hex; show tells the text of a file of bytes"]);
}

fn page() -> String {
    let path = std::path::Path::new(env!("CARGO_MANIFEST_DIR")).join("../docs/SCENARIOS.md");
    std::fs::read_to_string(path).expect("the page is there")
}

/// docs/SCENARIOS.md has the line of every kind.
#[test]
fn every_line_is_documented() {
    let page = page();
    for kind in &KINDS {
        let row = format!("| `{}` | {:02X} |", kind.pattern(), kind.byte);
        assert!(page.contains(&row), "{row}");
    }
}

/// So has it the words of every refusal.
#[test]
fn every_refusal_is_documented() {
    let page = page();
    let known = |number: &u8| !matches!(number, 22 | 30);
    for number in (2..=33).filter(known) {
        let words = if number < 13 { faults::meaning(number.into()) } else { reasons::meaning(number) };
        assert_ne!(words, "refused", "{number}");
        assert!(page.contains(&format!("| {number} | {words} |")), "{number}: {words}");
    }
}
