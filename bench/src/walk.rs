//! How far the terms of a file walk in the index of terms: its tree (crates/index) once more, for counting.

const BUCKETS: usize = 1_024;
pub const PRIME: usize = 1_021;

pub fn bucket(key: u64) -> usize {
    key as usize % PRIME
}

/// A term's four fields in one number, the first the lowest.
pub fn key(fields: [u64; 4]) -> u64 {
    fields.iter().rev().fold(0, |high, field| high << 16 | field)
}

/// The keys of a file's terms.
fn keys(file: &[u8]) -> Vec<u64> {
    let mut keys = Vec::new();
    let mut at = 0;
    while let Some(&kind) = file.get(at) {
        let byte = |i: usize| file[at + 1 + i] as u64;
        let word = |i: usize| byte(i) << 8 | byte(i + 1);
        let (length, fields) = match kind {
            0x01 => (1, None),
            0x10 | 0x11 => (3, Some([word(0), byte(2), 0, 0])),
            0x12 | 0x14 | 0x16 => (2, Some([word(0), 0, 0, 0])),
            0x13 | 0x18 | 0x1A => (4, Some([word(0), word(2), 0, 0])),
            0x15 => (6, Some([word(0), word(2), word(4), 0])),
            0x17 => (7, Some([byte(0), word(1), word(3), word(5)])),
            0x19 => (7, Some([word(0), byte(2), word(3), word(5)])),
            0x1B => (1, Some([byte(0), 0, 0, 0])),
            0x1C => (5, Some([byte(0), word(1), word(3), 0])),
            _ => break,
        };
        keys.extend(fields.map(key));
        at += 1 + length;
    }
    keys
}

/// The terms passed by the walks of a file's terms: by all together, and by the longest.
pub struct Steps {
    pub all: usize,
    pub longest: usize,
}

/// Of a file that loads.
pub fn steps(file: &[u8]) -> Steps {
    let keys = keys(file);
    let mut links = vec![None; BUCKETS + 2 * keys.len()];
    let mut steps = Steps { all: 0, longest: 0 };
    for (t, &key) in keys.iter().enumerate() {
        let mut slot = bucket(key);
        let mut rest = key;
        let mut passed = 0;
        while let Some(u) = links[slot] {
            slot = BUCKETS + 2 * u + (rest % 2) as usize;
            rest /= 2;
            passed += 1;
        }
        links[slot] = Some(t);
        steps.all += passed;
        steps.longest = steps.longest.max(passed);
    }
    steps
}
