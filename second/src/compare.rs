//! Comparing what another program prints with what this one does, case by
//! case.

use crate::damage;
use crate::listing;
use crate::listing_input;
use crate::show;
use std::io::{self, ErrorKind, Write};
use std::process::{Command, Stdio};

/// What is given to a program on standard input, and how it came about.
pub struct Input {
    pub kind: String,
    pub bytes: Vec<u8>,
}

/// Gives each image of a seed to `ask` and compares its answer with what
/// `show` prints. Writes the seed, each case that differs and the totals;
/// returns how many failed.
pub fn images(
    seed: u64,
    count: usize,
    ask: impl Fn(&[u8]) -> io::Result<Vec<u8>>,
    out: &mut impl Write,
) -> io::Result<usize> {
    let image = |number| {
        let damage::Case {
            kind,
            bad_at,
            image,
        } = damage::case(seed, number);
        let bad = bad_at.map_or(String::new(), |offset| format!(", made bad at {offset}"));
        Input {
            kind: format!("{kind}{bad}"),
            bytes: image,
        }
    };
    let inputs = (0..count).map(image);
    texts(seed, "image", inputs, show::grammar_text, ask, out)
}

/// The same with the token bytes of a seed and what `listing` prints.
pub fn listings(
    seed: u64,
    count: usize,
    ask: impl Fn(&[u8]) -> io::Result<Vec<u8>>,
    out: &mut impl Write,
) -> io::Result<usize> {
    let inputs = (0..count).map(|number| listing_input::input(seed, number));
    texts(seed, "tokens", inputs, listing::listing, ask, out)
}

/// Compares the answer to each input with the right text.
fn texts(
    seed: u64,
    what: &str,
    inputs: impl Iterator<Item = Input>,
    right: impl Fn(&[u8]) -> String,
    ask: impl Fn(&[u8]) -> io::Result<Vec<u8>>,
    out: &mut impl Write,
) -> io::Result<usize> {
    writeln!(out, "seed {seed}")?;
    let (mut passed, mut failed) = (0, 0);
    for (number, Input { kind, bytes }) in inputs.enumerate() {
        let expected = right(&bytes);
        let answer = ask(&bytes)?;
        if answer == expected.as_bytes() {
            passed += 1;
            continue;
        }
        failed += 1;
        let answer = String::from_utf8_lossy(&answer);
        writeln!(out, "seed {seed} case {number}: {kind}")?;
        writeln!(out, "{}", show::bytes(what, &bytes))?;
        write!(out, "the second program prints:\n{expected}")?;
        writeln!(out, "the other program prints:\n{answer}")?;
    }
    writeln!(out, "{passed} passed, {failed} failed")?;
    Ok(failed)
}

/// What a program prints for bytes on its standard input.
pub fn ask_program(program: &str, arguments: &[&str], input_bytes: &[u8]) -> io::Result<Vec<u8>> {
    let mut child = Command::new(program)
        .args(arguments)
        .stdin(Stdio::piped())
        .stdout(Stdio::piped())
        .spawn()?;
    let mut input = child.stdin.take().expect("standard input is a pipe");
    match input.write_all(input_bytes) {
        // A program may know its answer before it has read everything.
        Err(fault) if fault.kind() == ErrorKind::BrokenPipe => (),
        written => written?,
    }
    drop(input);
    let output = child.wait_with_output()?;
    let mut answer = output.stdout;
    if output.status.code().is_none() {
        writeln!(answer, "ended by {}", output.status)?;
    }
    Ok(answer)
}

#[cfg(test)]
mod tests {
    use super::*;

    fn report(count: usize, ask: impl Fn(&[u8]) -> Vec<u8>) -> (usize, String) {
        let mut out = Vec::new();
        let failed = images(7, count, |image| Ok(ask(image)), &mut out).expect("nothing to fail");
        (failed, String::from_utf8(out).expect("the report is text"))
    }

    #[test]
    fn equal_answers_pass() {
        let (failed, text) = report(300, |image| show::grammar_text(image).into_bytes());
        assert_eq!(failed, 0);
        assert_eq!(text, "seed 7\n300 passed, 0 failed\n");
    }

    #[test]
    fn a_different_answer_is_written_with_its_whole_case() {
        let wrong_for_a_cut = |image: &[u8]| match image.len() {
            3 => b"refused 1 3\n".to_vec(),
            _ => show::grammar_text(image).into_bytes(),
        };
        let (failed, text) = report(10, wrong_for_a_cut);
        assert_eq!(failed, 1);
        let expected = "seed 7\n\
                        seed 7 case 3: reference\n\
                        image of 3 bytes: 47 48 05\n\
                        the second program prints:\n\
                        refused 1 0\n\
                        the other program prints:\n\
                        refused 1 3\n\n\
                        9 passed, 1 failed\n";
        assert_eq!(text, expected);
    }

    #[test]
    fn listings_are_compared_in_the_same_way() {
        let report = |ask: &dyn Fn(&[u8]) -> String| {
            let mut out = Vec::new();
            let ask = |input: &[u8]| Ok(ask(input).into_bytes());
            let failed = listings(7, 100, ask, &mut out).expect("nothing to fail");
            (failed, String::from_utf8(out).expect("the report is text"))
        };
        let right = "seed 7\n100 passed, 0 failed\n".to_string();
        assert_eq!(report(&listing::listing), (0, right));
        let (failed, text) = report(&|input| match input.len() {
            0 => String::new(),
            _ => listing::listing(input),
        });
        assert!(failed > 0);
        let expected = "seed 7\n\
                        seed 7 case 0: empty sentence\n\
                        tokens of 0 bytes: \n\
                        the second program prints:\n\
                        accepted 1 0\n\
                        1 6 2 0 0\n\
                        the other program prints:\n\n";
        assert!(text.starts_with(expected), "{text}");
    }

    #[test]
    fn a_missing_newline_is_a_difference() {
        let (failed, _) = report(20, |image| show::grammar_text(image).trim_end().into());
        assert_eq!(failed, 20);
    }

    #[test]
    fn a_program_that_is_not_there_is_an_error() {
        assert!(ask_program("no-such-program", &[], &[]).is_err());
    }
}
