//! Comparing the calls of another program, which runs once and answers one
//! case after another, with this one's.

use crate::reply::Reply;
use crate::show;
use std::io::{self, BufReader, Error, ErrorKind, Read, Write};
use std::process::{Command, Stdio};
use std::sync::mpsc::{self, SyncSender};
use std::thread;

/// How many cases may be made before they are compared.
const AHEAD: usize = 64;

/// The numbers of all replies are below this.
const REPLIES: usize = 12;

/// A case of a call.
pub trait Case: Send + 'static {
    /// The numbers of the replies that the call gives.
    const REPLIES: &'static [usize];
    /// The buffer that the call writes besides the reply.
    const WRITTEN: &'static str;
    /// What each sign says.
    const SIGNS: &'static [&'static str];

    /// The case as the other program takes it.
    fn bytes(&self) -> Vec<u8>;

    /// The buffers before the call, with signs as they should be after it.
    fn before(&self) -> Answer;

    /// The reply to the case and the right answer.
    fn expected(&self) -> (Reply, Answer);

    /// A rule that holds of every answer and that this program's own answer
    /// breaks.
    fn broken_rule(&self, _: Reply, _: &Answer) -> Option<&'static str> {
        None
    }

    /// How the case came about, then all that is needed to run it again.
    fn text(&self) -> String;
}

/// What a call leaves: the reply buffer, the buffer that the call writes, and
/// signs about the others, each 1 if what it says is so.
#[derive(Clone, Debug, PartialEq)]
pub struct Answer {
    pub reply: Vec<u8>,
    pub written: Vec<u8>,
    pub signs: Vec<u8>,
}

/// What came of the cases.
#[derive(Debug, Default, PartialEq)]
struct Tally {
    passed: usize,
    /// How many cases got each reply.
    replies: [usize; REPLIES],
}

/// Compares the program on so many cases of a seed. Writes the seed, each case
/// that differs, how many cases got each reply, and the totals; returns how
/// many failed, which are all those that did not pass.
pub fn calls<C: Case>(
    cases: impl Iterator<Item = C> + Send + 'static,
    seed: u64,
    count: usize,
    program: &mut Command,
    out: &mut impl Write,
) -> io::Result<usize> {
    writeln!(out, "seed {seed}")?;
    let program = program.stdin(Stdio::piped()).stdout(Stdio::piped());
    let mut child = program.spawn()?;
    let input = child.stdin.take().expect("standard input is a pipe");
    let answers = child.stdout.take().expect("standard output is a pipe");
    let (sender, taken) = mpsc::sync_channel(AHEAD);
    let writer = thread::spawn(move || write_cases(cases.take(count), input, &sender));
    let tally = compare(seed, taken, BufReader::new(answers), out)?;
    writer.join().expect("writing cases does not panic");
    child.wait()?;
    write_totals::<C>(&tally, count, out)
}

/// Hands each case on to be compared and gives it to the program, until that
/// takes no more.
fn write_cases<C: Case>(
    cases: impl Iterator<Item = C>,
    mut input: impl Write,
    sender: &SyncSender<C>,
) {
    for case in cases {
        let bytes = case.bytes();
        if sender.send(case).is_err() || input.write_all(&bytes).is_err() {
            return;
        }
    }
}

/// Compares the answers to cases numbered from 0, until one cannot be read.
fn compare<C: Case>(
    seed: u64,
    cases: impl IntoIterator<Item = C>,
    mut answers: impl Read,
    out: &mut impl Write,
) -> io::Result<Tally> {
    let mut tally = Tally::default();
    for (number, case) in cases.into_iter().enumerate() {
        let (reply, expected) = case.expected();
        tally.replies[reply.number as usize] += 1;
        let broken_rule = case.broken_rule(reply, &expected);
        let answer = read_answer(case.before(), &mut answers);
        let is_equal = answer.as_ref().is_ok_and(|answer| *answer == expected);
        if is_equal && broken_rule.is_none() {
            tally.passed += 1;
            continue;
        }
        write_case(seed, number, &case, &expected, out)?;
        if let Some(rule) = broken_rule {
            writeln!(out, "the second program breaks the rule: {rule}")?;
        }
        match answer {
            Ok(answer) => write_difference::<C>(&expected, &answer, out)?,
            Err(fault) => {
                writeln!(out, "the other program does not answer: {fault}")?;
                break;
            }
        }
    }
    Ok(tally)
}

/// Writes all that is needed to run a case again, and its right reply.
fn write_case(
    seed: u64,
    number: usize,
    case: &impl Case,
    expected: &Answer,
    out: &mut impl Write,
) -> io::Result<()> {
    write!(out, "seed {seed} case {number}: {}", case.text())?;
    let reply = show::hex(&expected.reply);
    writeln!(out, "the second program replies: {reply}")
}

/// Writes the other program's reply, the first byte of the written buffer that
/// differs, and the signs that do.
fn write_difference<C: Case>(
    expected: &Answer,
    answer: &Answer,
    out: &mut impl Write,
) -> io::Result<()> {
    let reply = show::hex(&answer.reply);
    writeln!(out, "the other program replies:  {reply}")?;
    let name = C::WRITTEN;
    match first_difference(&expected.written, &answer.written) {
        Some((offset, ours, other)) => writeln!(
            out,
            "{name}: byte {offset} differs, the second program has {ours}, the other {other}"
        )?,
        None => writeln!(out, "{name}: the same")?,
    }
    let signs = C::SIGNS
        .iter()
        .zip(expected.signs.iter().zip(&answer.signs));
    for (name, (ours, other)) in signs.filter(|(_, (ours, other))| ours != other) {
        writeln!(
            out,
            "{name}: the second program has {ours}, the other {other}"
        )?;
    }
    Ok(())
}

/// The first offset at which two buffers differ, and the bytes there.
fn first_difference(ours: &[u8], other: &[u8]) -> Option<(usize, u8, u8)> {
    let mut bytes = ours.iter().zip(other).enumerate();
    let (offset, (&ours, &other)) = bytes.find(|(_, (ours, other))| ours != other)?;
    Some((offset, ours, other))
}

/// Writes the counts of replies and the totals; returns how many failed.
fn write_totals<C: Case>(tally: &Tally, count: usize, out: &mut impl Write) -> io::Result<usize> {
    let replies = C::REPLIES
        .iter()
        .map(|&reply| (reply, tally.replies[reply]));
    let fields: Vec<String> = replies.map(|(reply, n)| format!("{reply}:{n}")).collect();
    writeln!(out, "replies: {}", fields.join(" "))?;
    let failed = count - tally.passed;
    writeln!(out, "{} passed, {failed} failed", tally.passed)?;
    Ok(failed)
}

/// Numbers, such as lengths, as the other program takes them.
pub fn numbers<const COUNT: usize>(numbers: [usize; COUNT]) -> Vec<u8> {
    let numbers = numbers.map(|number| (number as u32).to_le_bytes());
    numbers.concat()
}

/// Reads the next answer of the other program over what was lent: the reply,
/// the written buffer, the signs.
fn read_answer(before: Answer, answers: &mut impl Read) -> io::Result<Answer> {
    let mut answer = before;
    answers.read_exact(&mut answer.reply)?;
    read_buffer(answers, &mut answer.written)?;
    answers.read_exact(&mut answer.signs)?;
    Ok(answer)
}

/// Reads into a buffer that holds what was there before the call: 0 if that is
/// still so, or 1 and the bytes.
fn read_buffer(answers: &mut impl Read, buffer: &mut [u8]) -> io::Result<()> {
    let mut sign = [0];
    answers.read_exact(&mut sign)?;
    match sign {
        [0] => Ok(()),
        [1] => answers.read_exact(buffer),
        _ => Err(Error::new(ErrorKind::InvalidData, "neither 0 nor 1")),
    }
}

#[cfg(test)]
pub mod checks;
#[cfg(test)]
mod tests;
