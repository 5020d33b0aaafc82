//! A scenario from a file: text where its name ends in .scenario, else the engine's bytes.

use std::ffi::OsStr;
use std::fmt;
use std::io::Read;

use birdweekly::{load, LoadAnswer, Refusal, FILE_BYTES, STATE_BYTES};

use crate::faults::{fault, meaning};
use crate::rehearsal::Rehearsal;
use crate::scenario::Scenario;
use crate::text::{assemble, Assembled, Mistake};

/// What a text scenario's file is called.
pub const ENDING: &str = ".scenario";

/// The longest text that is read. The text of the longest file, as `show` prints it, has some hundred thousand bytes.
const TEXT_BYTES: usize = 16 << 20;

/// Some editors begin a text with it.
const BYTE_ORDER_MARK: char = '\u{FEFF}';

/// A scenario as it was read; it may not load.
pub struct Source {
    pub name: String,
    pub bytes: Vec<u8>,
    pub scenario: Scenario,
    /// For a text: the lines of its records, and the text.
    text: Option<(Assembled, String)>,
    pub refused: Option<Refused>,
}

/// Why a file does not load.
#[derive(Clone, Debug)]
pub struct Refused {
    pub refusal: Refusal,
    pub words: String,
}

impl fmt::Display for Refused {
    fn fmt(&self, f: &mut fmt::Formatter) -> fmt::Result {
        let Refusal { number, place } = self.refusal;
        write!(f, "refused with {number} at place {place}, {}: {}", meaning(number), self.words)
    }
}

/// Why there is no scenario to speak of.
pub enum Unread {
    /// There is no such file, or it is no text where one is expected.
    NoFile(String),
    Mistakes {
        name: String,
        text: String,
        mistakes: Vec<Mistake>,
    },
}

impl Unread {
    /// What is said of it, a message each.
    pub fn told(&self) -> Vec<String> {
        match self {
            Unread::NoFile(message) => vec![message.clone()],
            Unread::Mistakes { name, text, mistakes } => {
                mistakes.iter().map(|mistake| mistake.told(name, text)).collect()
            }
        }
    }
}

impl Source {
    /// Reads a file, or standard input for "-"; as text if it is to be one, or its name says so.
    pub fn read(path: &OsStr, text: bool) -> Result<Source, Unread> {
        let name = path.to_string_lossy();
        let unreadable = |error: std::io::Error| Unread::NoFile(format!("cannot read {name}: {error}"));
        let text = text || name.ends_with(ENDING);
        // One byte more than is allowed is enough to refuse a file.
        let most = if text { TEXT_BYTES } else { FILE_BYTES } + 1;
        let mut bytes = Vec::new();
        if path == "-" {
            std::io::stdin().take(most as u64).read_to_end(&mut bytes).map_err(unreadable)?;
        } else {
            let file = std::fs::File::open(path).map_err(unreadable)?;
            file.take(most as u64).read_to_end(&mut bytes).map_err(unreadable)?;
        }
        if text {
            return Source::of_text(&name, bytes);
        }
        let looks_like_text = !bytes.is_empty() && first_other_byte(&bytes).is_none();
        let mut source = Source::of_bytes(&name, bytes);
        if let Some(refused) = source.refused.as_mut().filter(|_| looks_like_text) {
            refused.words.push_str(if path == "-" {
                "; it looks like text, and standard input is read as bytes (assemble gives them)"
            } else {
                "; it looks like text, and is read as bytes since its name does not end in .scenario"
            });
        }
        Ok(source)
    }

    pub fn of_bytes(name: &str, bytes: Vec<u8>) -> Source {
        let scenario = Scenario::of_bytes(&bytes[..bytes.len().min(FILE_BYTES)]);
        Source { name: name.into(), refused: refused(&bytes, &scenario), bytes, scenario, text: None }
    }

    pub fn of_text(name: &str, bytes: Vec<u8>) -> Result<Source, Unread> {
        if bytes.len() > TEXT_BYTES {
            return Err(Unread::NoFile(format!("{name}: expected a text of at most {TEXT_BYTES} bytes")));
        }
        if let Some(at) = first_other_byte(&bytes) {
            let line = 1 + bytes[..at].iter().filter(|byte| **byte == b'\n').count();
            let found = format!("{name}:{line}: expected text, found the byte {:02X} hex", bytes[at]);
            return Err(Unread::NoFile(format!("{found}; show tells the text of a file of bytes")));
        }
        let text = String::from_utf8_lossy(&bytes).replace("\r\n", "\n").replace('\r', "\n");
        let text = text.trim_start_matches(BYTE_ORDER_MARK).to_string();
        match assemble(&text) {
            Ok(assembled) => {
                let (bytes, scenario) = (assembled.bytes.clone(), assembled.scenario.clone());
                let refused = refused(&bytes, &scenario);
                Ok(Source { name: name.into(), bytes, scenario, text: Some((assembled, text)), refused })
            }
            Err(mistakes) => Err(Unread::Mistakes { name: name.into(), text, mistakes }),
        }
    }

    /// The run of a file that loads.
    pub fn rehearsed(&self) -> Result<Rehearsal, Refused> {
        match &self.refused {
            Some(refused) => Err(refused.clone()),
            None => Ok(Rehearsal::of(&self.bytes, &self.scenario)),
        }
    }

    /// The line of the record at a place, in a text.
    pub fn line(&self, place: usize) -> Option<usize> {
        self.text.as_ref().and_then(|(assembled, _)| assembled.line(place))
    }

    /// The line of the record that is refused, in a text; a file that is too long has none.
    pub fn refused_line(&self, refused: &Refused) -> Option<usize> {
        self.line(refused.refusal.place as usize).filter(|_| refused.refusal.number != 2)
    }

    /// Why the file does not load, with its line where it is a text.
    pub fn told(&self, refused: &Refused) -> String {
        match (self.refused_line(refused), &self.text) {
            (Some(line), Some((_, text))) => {
                let shown = text.lines().nth(line - 1).unwrap_or("");
                let column = shown.chars().take_while(|c| c.is_whitespace()).count();
                let width = shown.split('#').next().unwrap_or("").trim().chars().count();
                Mistake { line, column, width, message: refused.to_string() }.told(&self.name, text)
            }
            _ => format!("{}: {refused}", self.name),
        }
    }
}

/// The first byte that is of no text: no UTF-8, or a control character other than tab and line ends.
fn first_other_byte(bytes: &[u8]) -> Option<usize> {
    let control = bytes.iter().position(|byte| byte.is_ascii_control() && !matches!(byte, b'\t' | b'\n' | b'\r'));
    let text = &bytes[..control.unwrap_or(bytes.len())];
    std::str::from_utf8(text).err().map(|error| error.valid_up_to()).or(control)
}

fn refused(bytes: &[u8], scenario: &Scenario) -> Option<Refused> {
    match load(bytes, &mut vec![0; STATE_BYTES]) {
        LoadAnswer::Loaded { .. } => None,
        LoadAnswer::Refused(refusal) => {
            let found = fault(bytes, scenario, refusal.place as usize).filter(|(number, _)| *number == refusal.number);
            let words = found.map_or("the record is not in order".into(), |(_, words)| words);
            Some(Refused { refusal, words })
        }
    }
}
