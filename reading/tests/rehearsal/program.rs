//! The program itself: standard input to standard output.

use crate::builder::*;
use reading::*;
use std::io::Write;
use std::process::{Command, Stdio};

fn printed(file: &[u8]) -> Vec<u8> {
    let mut child = Command::new(env!("CARGO_BIN_EXE_reading-listing"))
        .stdin(Stdio::piped())
        .stdout(Stdio::piped())
        .spawn()
        .unwrap();
    child.stdin.take().unwrap().write_all(file).unwrap();
    let output = child.wait_with_output().unwrap();
    assert!(output.status.success());
    output.stdout
}

#[test]
fn program_prints_the_listing() {
    let (b, ..) = chain(8);
    let (of_board, ..) = board();
    let (of_two, ..) = two_boards();
    let (of_four, ..) = together();
    let (of_quotes, ..) = quoted();
    let long = vec![0x16; FILE_BYTES + 1];
    for file in [
        &[][..],
        &[0xFF],
        &b.bytes(),
        &of_board.bytes(),
        &of_two.bytes(),
        &of_four.bytes(),
        &of_quotes.bytes(),
        &long,
    ] {
        assert_eq!(printed(file), listing(file));
    }
    assert_eq!(printed(&[]), b"T 0 0 0\n");
    assert_eq!(printed(&long), b"F 2 0\n");
}
