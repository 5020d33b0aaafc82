//! The text form of a scenario, read: one record a line, names for numbers. docs/SCENARIOS.md describes it.

use std::collections::{HashMap, HashSet};
use std::fmt::Write;

use crate::forms::{self, listed, Field, Kind, Section, KINDS, PAIRS};
use crate::scenario::{Record, Scenario, Subject, Value};

/// What is wrong with a line, and where in it.
#[derive(Clone, Debug, PartialEq, Eq)]
pub struct Mistake {
    /// From 1.
    pub line: usize,
    /// Characters before the place, and how many it has.
    pub column: usize,
    pub width: usize,
    pub message: String,
}

impl Mistake {
    /// The message with the line that it speaks of.
    pub fn told(&self, file: &str, text: &str) -> String {
        let line = text.lines().nth(self.line - 1).unwrap_or("");
        let margin: String = line.chars().take(self.column).map(|c| if c == '\t' { '\t' } else { ' ' }).collect();
        let mut told = format!("{file}:{}: {}\n    {line}\n    {margin}", self.line, self.message);
        let _ = write!(told, "{}", "^".repeat(self.width.max(1)));
        told
    }
}

/// A scenario with the line of each record, by its place.
#[derive(Debug)]
pub struct Assembled {
    pub scenario: Scenario,
    pub bytes: Vec<u8>,
    lines: HashMap<usize, usize>,
}

impl Assembled {
    /// The line of the record at a place.
    pub fn line(&self, place: usize) -> Option<usize> {
        self.lines.get(&place).copied()
    }
}

/// Reads a scenario's text. Its records may stand in any order of sections; in the file they stand section by section.
pub fn assemble(text: &str) -> Result<Assembled, Vec<Mistake>> {
    let lines: Vec<Line> = text.lines().enumerate().map(Line::new).collect();
    let mut reader = Reader::default();
    for line in &lines {
        if let Some(name) = line.declares() {
            reader.all_names.entry(name.text.to_string()).or_insert(line.number);
        }
    }
    for line in lines.iter().filter(|line| !line.tokens.is_empty()) {
        reader.line(line);
    }
    reader.finish()
}

#[derive(Clone, Copy, Debug)]
struct Token<'a> {
    text: &'a str,
    column: usize,
}

/// Words, and = : , by themselves; # begins a comment.
fn tokens(line: &str) -> Vec<Token<'_>> {
    let mut tokens = Vec::new();
    let mut word: Option<(usize, usize)> = None;
    for (column, (at, c)) in line.char_indices().enumerate() {
        let sign = matches!(c, '=' | ':' | ',');
        if c.is_whitespace() || sign || c == '#' {
            if let Some((start, first)) = word.take() {
                tokens.push(Token { text: &line[start..at], column: first });
            }
        } else if word.is_none() {
            word = Some((at, column));
        }
        if sign {
            tokens.push(Token { text: &line[at..at + 1], column });
        }
        if c == '#' {
            return tokens;
        }
    }
    if let Some((start, first)) = word {
        tokens.push(Token { text: &line[start..], column: first });
    }
    tokens
}

struct Line<'a> {
    /// From 1.
    number: usize,
    tokens: Vec<Token<'a>>,
}

impl<'a> Line<'a> {
    fn new((i, text): (usize, &'a str)) -> Line<'a> {
        Line { number: i + 1, tokens: tokens(text) }
    }

    fn at(&self, i: usize) -> Option<Token<'a>> {
        self.tokens.get(i).copied()
    }

    fn is(&self, i: usize, text: &str) -> bool {
        self.at(i).is_some_and(|token| token.text == text)
    }

    /// Told by the line's first two words. A line that is none of the others counts as set-up.
    fn section(&self) -> Section {
        match () {
            _ if self.is(0, "party") => Section::Parties,
            _ if self.is(1, "=") => Section::Terms,
            _ if self.is(1, ":") => Section::Commands,
            _ => Section::SetUp,
        }
    }

    /// The name that the line declares.
    fn declares(&self) -> Option<Token<'a>> {
        match self.section() {
            Section::Parties => self.at(1),
            Section::Terms => self.at(0),
            _ => None,
        }
    }

    /// A mistake at a token, or at the line's end.
    fn mistake(&self, at: Option<Token>, message: String) -> Mistake {
        let end = self.tokens.last().map_or(0, |last| last.column + last.text.chars().count());
        let (column, width) = at.map_or((end, 1), |token| (token.column, token.text.chars().count()));
        Mistake { line: self.number, column, width, message }
    }

    /// "expected x, found y".
    fn expected(&self, at: Option<Token>, what: &str) -> Mistake {
        let found = at.map_or("the end of the line".to_string(), |token| quoted(token.text));
        self.mistake(at, format!("expected {what}, found {found}"))
    }
}

/// The kind of a term whose line has a mistake.
const UNKNOWN: u8 = 0;

/// What a name stands for.
#[derive(Clone, Copy)]
enum Meaning {
    Party(u8),
    /// A term's number and kind; no kind where its line has a mistake.
    Term(u16, Option<u8>),
}

#[derive(Default)]
struct Reader {
    scenario: Scenario,
    /// Names declared so far, with their lines.
    names: HashMap<String, (Meaning, usize)>,
    /// Every name of the text, with the first line that declares it.
    all_names: HashMap<String, usize>,
    /// The lines of the records, section by section.
    lines: [Vec<usize>; 4],
    mistakes: Vec<Mistake>,
    /// Words of lines that are no record: lines below are not blamed for them.
    doubtful: HashSet<String>,
}

/// What keeps a line from being a record.
enum Wrong {
    Mistake(Mistake),
    /// A mistake in a line above is enough.
    ToldBefore,
}

impl From<Mistake> for Wrong {
    fn from(mistake: Mistake) -> Wrong {
        Wrong::Mistake(mistake)
    }
}

impl Reader {
    fn line(&mut self, line: &Line) {
        let read = self.record(line);
        let kind = read.as_ref().ok().map(|record| record.kind);
        let declared = line.declares().map_or(Ok(()), |name| self.declare(line, name, kind));
        match declared.map_err(Wrong::from).and(read) {
            Ok(record) => {
                let section = line.section();
                self.lines[section as usize].push(line.number);
                self.scenario.section_mut(section).push(record);
            }
            Err(wrong) => {
                if line.declares().is_none() {
                    self.doubtful.extend(line.tokens.iter().map(|token| token.text.to_string()));
                }
                // The terms below keep their numbers.
                if self.scenario.terms.len() < self.scenario.term_names.len() {
                    self.scenario.terms.push(Record { kind: UNKNOWN, place: 0, values: Vec::new() });
                }
                if let Wrong::Mistake(mistake) = wrong {
                    self.mistakes.push(mistake);
                }
            }
        }
    }

    /// Enters the name that a line declares, also where the line has a mistake, so that lines below it are not blamed.
    fn declare(&mut self, line: &Line, name: Token, kind: Option<u8>) -> Result<(), Mistake> {
        if let Some((meaning, before)) = self.names.get(name.text) {
            let message = match (meaning, line.section()) {
                (Meaning::Party(_), Section::Terms) => {
                    format!("{} is a party (line {before}); its commands stand behind \":\"", quoted(name.text))
                }
                _ => format!("{} is declared already, on line {before}", quoted(name.text)),
            };
            return Err(line.mistake(Some(name), message));
        }
        let (names, party) = match line.section() {
            Section::Parties => (&mut self.scenario.party_names, true),
            _ => (&mut self.scenario.term_names, false),
        };
        let number = names.len();
        names.push(name.text.to_string());
        let meaning = if party { Meaning::Party(number as u8) } else { Meaning::Term(number as u16, kind) };
        self.names.insert(name.text.to_string(), (meaning, line.number));
        Ok(())
    }

    /// The record of a line: its words beside those of its kind's line.
    fn record(&self, line: &Line) -> Result<Record, Wrong> {
        let kind = self.kind(line)?;
        let mut values: Vec<Option<Value>> = vec![None; kind.fields.len()];
        let mut next = 0;
        for part in tokens(kind.line) {
            let field: Option<usize> =
                part.text.strip_prefix('{').and_then(|rest| rest.strip_suffix('}')).and_then(|i| i.parse().ok());
            match field {
                Some(i) => values[i] = Some(self.value(line, &mut next, kind.fields[i])?),
                None if part.text == "@" => self.new_name(line, &mut next)?,
                None if line.is(next, part.text) => next += 1,
                None => return Err(line.expected(line.at(next), &quoted(part.text)).into()),
            }
        }
        if next < line.tokens.len() {
            return Err(line.expected(line.at(next), "the end of the line").into());
        }
        Ok(Record { kind: kind.byte, place: 0, values: values.into_iter().flatten().collect() })
    }

    /// The kind of a line, by the word that names it.
    fn kind(&self, line: &Line) -> Result<&'static Kind, Mistake> {
        let section = line.section();
        let word = match section {
            Section::Parties => line.at(0),
            Section::SetUp => line.at(1),
            Section::Terms | Section::Commands => line.at(2),
        };
        let of_section = |kind: &&Kind| kind.section() == section;
        if let Some(kind) = KINDS.iter().filter(of_section).find(|kind| word.is_some_and(|word| word.text == kind.name))
        {
            return Ok(kind);
        }
        let names: Vec<&str> = KINDS.iter().filter(of_section).map(|kind| kind.name).collect();
        let alike = word.and_then(|word| suggestion(word.text, names.iter().copied()));
        let is = |other: Section| word.is_some_and(|word| is_kind_of(word.text, other));
        match section {
            Section::Terms => {
                let what = format!("a kind of term ({})", listed(&names, "or"));
                Err(with(line.expected(word, &what), alike))
            }
            Section::Commands if line.is(2, "=") => {
                Err(line.mistake(line.at(1), "expected \"=\" between the name and its term, found \":=\"".into()))
            }
            Section::Commands if is(Section::SetUp) => {
                Err(line.mistake(line.at(1), "expected no \":\" here: what follows is set-up, not a command".into()))
            }
            Section::Commands if is(Section::Terms) => {
                Err(line.expected(line.at(1), "\"=\" between the name and its term"))
            }
            Section::Commands => {
                let what = format!("a command ({})", listed(&names, "or"));
                Err(with(line.expected(word, &what), alike))
            }
            _ => Err(self.no_record(line, alike)),
        }
    }

    /// A line that is no record: what its second word, or the want of one, tells.
    fn no_record(&self, line: &Line, alike: Option<String>) -> Mistake {
        let (first, second) = (line.at(0), line.at(1));
        match first.map_or("", |word| word.text) {
            ":" => return line.expected(first, "the name of a party before the \":\""),
            "=" => return line.expected(first, "a name before the \"=\""),
            _ => {}
        }
        let named = |section: Section| second.is_some_and(|word| is_kind_of(word.text, section));
        let is_party = first.is_some_and(|word| matches!(self.names.get(word.text), Some((Meaning::Party(_), _))));
        if named(Section::Commands) && (is_party || !named(Section::Terms)) {
            return line.expected(second, "\":\" between the party and its command");
        }
        if named(Section::Terms) {
            return line.expected(second, "\"=\" between the name and its term");
        }
        if alike.is_some() || is_party {
            let what = "\"learns\", \"holds\" or \"signs-with\" after the party, or \":\" and a command";
            return with(line.expected(second, what), alike);
        }
        let what = "\"party NAME ROLE\", \"NAME = TERM\", \"PARTY learns TERM\" or \"PARTY: COMMAND\"";
        let close = first.and_then(|word| suggestion(word.text, ["party"].into_iter()));
        with(line.expected(first, what), close)
    }

    /// A name that the line declares.
    fn new_name(&self, line: &Line, next: &mut usize) -> Result<(), Mistake> {
        let token = line.at(*next);
        let fits = |text: &str| {
            text.starts_with(char::is_alphabetic)
                && text.chars().all(|c| c.is_alphanumeric() || matches!(c, '-' | '_' | '.' | '\''))
                && text != "party"
        };
        match token {
            Some(token) if fits(token.text) => {
                *next += 1;
                Ok(())
            }
            Some(token) if token.text == "=" && line.section() == Section::Parties => {
                Err(line.mistake(line.at(0), "\"party\" begins the line of a party and is no name".into()))
            }
            _ => Err(line.expected(token, "a name (a letter, then letters, digits, - _ . and ')")),
        }
    }

    fn value(&self, line: &Line, next: &mut usize, field: Field) -> Result<Value, Wrong> {
        let token = line.at(*next);
        let word = token.map_or("", |token| token.text);
        let expected = || line.expected(token, &field.words());
        if token.is_some() {
            *next += 1;
        }
        match field {
            Field::Role => match forms::ROLES.iter().position(|role| *role == word) {
                Some(role) => Ok(Value::Role(role as u8)),
                None => Err(with(expected(), suggestion(word, forms::ROLES.into_iter())).into()),
            },
            Field::Identifier => Ok(number(word).map(Value::Identifier).ok_or_else(expected)?),
            Field::Register => {
                let register = number(word).and_then(|n| u8::try_from(n).ok()).filter(|n| *n < forms::REGISTERS);
                Ok(register.map(Value::Register).ok_or_else(expected)?)
            }
            Field::Attributes => {
                let sum = attributes(word).map_err(|hint| told_more(expected(), &hint))?;
                let more = |token: &Token| {
                    token.text == "," || token.text.starts_with('+') || forms::FLAGS.contains(&token.text)
                };
                match line.at(*next).filter(more) {
                    Some(token) => {
                        let message = "attributes are joined by + with no space or comma, such as restricted+sign";
                        Err(line.mistake(Some(token), message.into()).into())
                    }
                    None => Ok(Value::Attributes(sum)),
                }
            }
            Field::Subject => {
                let subject = match word {
                    "tpm" => Subject::Tpm,
                    "device" => Subject::Device,
                    _ => return Err(with(expected(), suggestion(word, ["tpm", "device"].into_iter())).into()),
                };
                match self.value(line, next, Field::Identifier)? {
                    Value::Identifier(id) => Ok(Value::Subject(subject(id))),
                    _ => Err(expected().into()),
                }
            }
            _ if self.doubtful.contains(word) && !self.names.contains_key(word) => Err(Wrong::ToldBefore),
            Field::Party => match self.names.get(word) {
                Some((Meaning::Party(party), _)) => Ok(Value::Party(*party)),
                Some((Meaning::Term(_, None), _)) => Err(Wrong::ToldBefore),
                _ => Err(self.wrong_name(line, token, field).into()),
            },
            Field::AnyTerm | Field::Term(_) | Field::Over(..) => match self.names.get(word) {
                Some((Meaning::Term(term, kind), _)) if kind.is_none_or(|kind| self.suits(*term, kind, field)) => {
                    Ok(Value::Term(*term))
                }
                _ => Err(self.wrong_name(line, token, field).into()),
            },
            Field::Pairs => {
                *next -= token.is_some() as usize;
                self.pairs(line, next).map(Value::Pairs)
            }
        }
    }

    /// A term of a kind may stand in a field.
    fn suits(&self, term: u16, kind: u8, field: Field) -> bool {
        match field {
            Field::Term(called_for) => kind == called_for,
            Field::Over(called_for, over) => {
                let content = self.scenario.term(term).map_or(forms::EMPTY, |record| record.term(0));
                kind == called_for && [over, UNKNOWN].iter().any(|kind| self.scenario.is_kind(content, *kind))
            }
            _ => true,
        }
    }

    /// Up to four of "certificate for credential" or "-", with commas between.
    fn pairs(&self, line: &Line, next: &mut usize) -> Result<[Option<(u16, u16)>; PAIRS], Wrong> {
        let mut pairs = [None; PAIRS];
        for (i, pair) in pairs.iter_mut().enumerate() {
            if line.is(*next, "-") {
                *next += 1;
            } else {
                let certificate = self.value(line, next, Field::Term(forms::CERTIFICATE))?;
                if !line.is(*next, "for") {
                    return Err(line.expected(line.at(*next), "\"for\" and the credential of the certificate").into());
                }
                *next += 1;
                let credential = self.value(line, next, Field::Term(forms::CREDENTIAL))?;
                *pair = match (credential, certificate) {
                    (Value::Term(credential), Value::Term(certificate)) => Some((credential, certificate)),
                    _ => None,
                };
            }
            if !line.is(*next, ",") {
                break;
            }
            if i + 1 == PAIRS {
                return Err(line.expected(line.at(*next), "\"returned-by\" after four pairs").into());
            }
            *next += 1;
        }
        Ok(pairs)
    }

    /// What is wrong with a name in a field.
    fn wrong_name(&self, line: &Line, token: Option<Token>, field: Field) -> Mistake {
        let what = field.words();
        let Some(token) = token else {
            return line.expected(None, &what);
        };
        let name = quoted(token.text);
        let found = match self.names.get(token.text) {
            Some((Meaning::Party(_), before)) => format!("{name} is a party (line {before})"),
            Some((Meaning::Term(term, kind), before)) => {
                let is = match (kind, field) {
                    (Some(kind), Field::Party) => format!("a term, {}", forms::term_words(*kind)),
                    (kind, _) => kind.map_or("a term", forms::term_words).into(),
                };
                let half = self.scenario.other_half(*term).filter(|half| {
                    let kind = self.scenario.terms[*half as usize].kind;
                    self.suits(*half, kind, field)
                });
                let half = half.map(|half| format!("; its other half is {}", quoted(self.scenario.term_name_of(half))));
                format!("{name} is {is} (line {before}){}", half.unwrap_or_default())
            }
            None => match self.all_names.get(token.text) {
                Some(here) if *here == line.number => {
                    format!("{name} is declared by this line, and used after it alone")
                }
                Some(below) => format!("{name} is declared below, on line {below}; a name is used after its line"),
                None => {
                    let fitting = self.names.iter().filter(|(_, (meaning, _))| match meaning {
                        Meaning::Party(_) => field == Field::Party,
                        Meaning::Term(term, kind) => {
                            field != Field::Party && kind.is_none_or(|kind| self.suits(*term, kind, field))
                        }
                    });
                    // Of names that are as near, the one declared last.
                    let mut fitting: Vec<(usize, &str)> = fitting.map(|(name, (_, at))| (*at, name.as_str())).collect();
                    fitting.sort_unstable_by(|a, b| b.cmp(a));
                    let alike = suggestion(token.text, fitting.into_iter().map(|(_, name)| name));
                    return with(line.mistake(Some(token), format!("expected {what}; {name} is not declared")), alike);
                }
            },
        };
        line.mistake(Some(token), format!("expected {what}; {found}"))
    }

    fn finish(mut self) -> Result<Assembled, Vec<Mistake>> {
        if !self.mistakes.is_empty() {
            return Err(self.mistakes);
        }
        let mut lines = HashMap::new();
        let mut bytes = Vec::new();
        let numbers = self.lines.concat();
        let scenario = &mut self.scenario;
        let sections = [&mut scenario.parties, &mut scenario.terms, &mut scenario.setup, &mut scenario.commands];
        for (record, line) in sections.into_iter().flatten().zip(numbers) {
            record.place = bytes.len();
            lines.insert(record.place, line);
            bytes.extend(record.bytes());
        }
        Ok(Assembled { scenario: self.scenario, bytes, lines })
    }
}

fn quoted(text: &str) -> String {
    format!("\"{text}\"")
}

fn with(mistake: Mistake, alike: Option<String>) -> Mistake {
    let hint = alike.map_or(String::new(), |alike| format!("Did you mean {}?", quoted(&alike)));
    told_more(mistake, &hint)
}

fn told_more(mut mistake: Mistake, hint: &str) -> Mistake {
    if !hint.is_empty() {
        mistake.message.push_str(". ");
        mistake.message.push_str(hint);
    }
    mistake
}

/// A decimal number of 16 bits.
fn number(word: &str) -> Option<u16> {
    word.parse().ok().filter(|_| word.bytes().all(|byte| byte.is_ascii_digit()))
}

/// A sum of attributes, each once, or none; else a hint.
fn attributes(word: &str) -> Result<u8, String> {
    if word == "none" {
        return Ok(0);
    }
    let mut sum = 0;
    for flag in word.split('+') {
        let Some(i) = forms::FLAGS.iter().position(|name| *name == flag) else {
            let alike = suggestion(flag, forms::FLAGS.into_iter());
            return Err(alike.map_or(String::new(), |alike| format!("Did you mean {}?", quoted(&alike))));
        };
        if sum >> i & 1 == 1 {
            return Err(format!("{} stands there twice", quoted(flag)));
        }
        sum |= 1 << i;
    }
    Ok(sum)
}

fn is_kind_of(word: &str, section: Section) -> bool {
    KINDS.iter().any(|kind| kind.section() == section && kind.name == word)
}

/// The candidate that is nearest to a word, if it is near; the first of them.
pub fn suggestion<'a>(word: &str, candidates: impl Iterator<Item = &'a str>) -> Option<String> {
    let word = word.to_lowercase();
    let near = 1 + word.chars().count() / 4;
    let ranked = candidates.map(|candidate| (distance(&word, &candidate.to_lowercase()), candidate));
    let near = ranked.filter(|(d, _)| *d <= near && *d < word.chars().count());
    near.min_by_key(|(d, _)| *d).map(|(_, candidate)| candidate.to_string())
}

/// How many letters are to be put in, taken out, changed or swapped with their neighbour.
fn distance(a: &str, b: &str) -> usize {
    let (a, b): (Vec<char>, Vec<char>) = (a.chars().collect(), b.chars().collect());
    let mut rows = vec![(0..=b.len()).collect::<Vec<usize>>()];
    for i in 1..=a.len() {
        let mut row = vec![i];
        for j in 1..=b.len() {
            let changed = rows[i - 1][j - 1] + (a[i - 1] != b[j - 1]) as usize;
            let mut least = changed.min(rows[i - 1][j] + 1).min(row[j - 1] + 1);
            if i > 1 && j > 1 && a[i - 1] == b[j - 2] && a[i - 2] == b[j - 1] {
                least = least.min(rows[i - 2][j - 2] + 1);
            }
            row.push(least);
        }
        rows.push(row);
    }
    rows[a.len()][b.len()]
}
