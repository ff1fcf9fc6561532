//! What is written about the answers to cases of prepare, and what is sent.

use super::*;
use crate::parse_case;
use crate::prepare_case;

const SEED: u64 = 7;

fn cases(count: usize) -> Vec<prepare_case::Case> {
    prepare_case::cases(SEED).take(count).collect()
}

/// The tally and the text for these answers to the first cases.
fn report(count: usize, answers: &[Vec<u8>]) -> (Tally, String) {
    let mut out = Vec::new();
    let answers = answers.concat();
    let tally = compare(SEED, cases(count), &answers[..], &mut out).expect("nothing to fail");
    (tally, String::from_utf8(out).expect("the report is text"))
}

fn right_answers(count: usize) -> Vec<Vec<u8>> {
    cases(count).iter().map(checks::right_answer).collect()
}

fn totals(tally: &Tally, count: usize) -> (usize, String) {
    let mut out = Vec::new();
    let failed =
        write_totals::<prepare_case::Case>(tally, count, &mut out).expect("nothing to fail");
    (failed, String::from_utf8(out).expect("the totals are text"))
}

#[test]
fn right_answers_pass() {
    let (tally, text) = report(300, &right_answers(300));
    assert_eq!(tally.passed, 300);
    assert_eq!(tally.replies.iter().sum::<usize>(), 300);
    assert_eq!(text, "");
}

#[test]
fn a_different_table_byte_is_written_with_its_whole_case() {
    let mut answers = right_answers(5);
    answers[0][32 + 1 + 33] ^= 1;
    let (tally, text) = report(5, &answers);
    assert_eq!(tally.passed, 4);
    let zeros = ["00"; 32].join(" ");
    let image = show::hex(&crate::reference::IMAGE);
    let expected = format!(
        "seed 7 case 0: reference\n\
         image of 49 bytes: {image}\n\
         tables of 33792 bytes, reply of 32 bytes, filled with aa\n\
         the second program replies: {zeros}\n\
         the other program replies:  {zeros}\n\
         tables: byte 33 differs, the second program has 3, the other 2\n"
    );
    assert_eq!(text, expected);
}

#[test]
fn a_different_reply_is_a_difference() {
    let mut answers = right_answers(4);
    answers[1][4] += 1;
    let (tally, text) = report(4, &answers);
    assert_eq!(tally.passed, 3);
    assert!(text.contains("the second program replies: 01 00 00 00 2d 00"));
    assert!(text.contains("the other program replies:  01 00 00 00 2e 00"));
    assert!(text.ends_with("tables: the same\n"));
}

#[test]
fn a_different_sign_is_written_with_what_it_says() {
    let case = parse_case::cases(SEED).next().expect("there are cases");
    let mut answer = checks::right_answer(&case);
    *answer.last_mut().expect("a sign") = 0;
    let mut out = Vec::new();
    let tally = compare(SEED, [case], &answer[..], &mut out).expect("nothing to fail");
    assert_eq!(tally.passed, 0);
    let text = String::from_utf8(out).expect("the report is text");
    let end = "tree: the same\nwork area zero: the second program has 1, the other 0\n";
    assert!(text.ends_with(end), "{text}");
}

/// A case of which this program's own answer breaks a rule.
struct Broken(prepare_case::Case);

impl Case for Broken {
    const REPLIES: &'static [usize] = prepare_case::Case::REPLIES;
    const WRITTEN: &'static str = prepare_case::Case::WRITTEN;
    const SIGNS: &'static [&'static str] = prepare_case::Case::SIGNS;

    fn bytes(&self) -> Vec<u8> {
        self.0.bytes()
    }

    fn before(&self) -> Answer {
        self.0.before()
    }

    fn expected(&self) -> (Reply, Answer) {
        self.0.expected()
    }

    fn broken_rule(&self, reply: Reply, _: &Answer) -> Option<&'static str> {
        reply.is_accepted().then_some("all is refused")
    }

    fn text(&self) -> String {
        self.0.text()
    }
}

#[test]
fn a_broken_rule_fails_even_if_the_answers_are_equal() {
    let answers = right_answers(4).concat();
    let cases = cases(4).into_iter().map(Broken);
    let mut out = Vec::new();
    let tally = compare(SEED, cases, &answers[..], &mut out).expect("nothing to fail");
    assert_eq!(tally.passed, 3);
    let text = String::from_utf8(out).expect("the report is text");
    assert!(text.starts_with("seed 7 case 0: reference\n"));
    assert!(text.contains("\nthe second program breaks the rule: all is refused\n"));
    assert!(text.ends_with("\ntables: the same\n"));
}

#[test]
fn tables_that_a_refusal_leaves_differ_from_written_ones() {
    let mut answers = right_answers(1);
    answers[0].truncate(32);
    answers[0].push(0);
    let (tally, text) = report(1, &answers);
    assert_eq!(tally.passed, 0);
    assert!(text.ends_with("tables: byte 0 differs, the second program has 2, the other 170\n"));
}

#[test]
fn the_cases_after_a_missing_answer_fail() {
    let (tally, text) = report(10, &right_answers(6));
    assert_eq!(tally.passed, 6);
    assert!(text.starts_with("seed 7 case 6: "));
    assert!(text.contains("the other program does not answer: "));
    let (failed, text) = totals(&tally, 10);
    assert_eq!(failed, 4);
    assert!(text.ends_with("\n6 passed, 4 failed\n"));
}

#[test]
fn replies_of_the_call_are_counted_by_number() {
    let (tally, _) = report(4, &right_answers(4));
    assert_eq!(tally.replies[..5], [1, 1, 1, 1, 0]);
    let expected = "replies: 0:1 1:1 2:1 3:1 4:0\n4 passed, 0 failed\n";
    assert_eq!(totals(&tally, 4), (0, expected.to_string()));
}

#[test]
fn writing_ends_when_no_case_is_taken_any_more() {
    let (sender, taken) = mpsc::sync_channel(3);
    drop(taken);
    let mut input = Vec::new();
    write_cases(cases(3).into_iter(), &mut input, &sender);
    assert_eq!(input, []);
}

#[test]
fn cases_are_written_in_order() {
    let (sender, taken) = mpsc::sync_channel(3);
    let mut input = Vec::new();
    write_cases(cases(3).into_iter(), &mut input, &sender);
    drop(sender);
    let taken: Vec<prepare_case::Case> = taken.into_iter().collect();
    let bytes: Vec<Vec<u8>> = taken.iter().map(Case::bytes).collect();
    assert_eq!(taken, cases(3));
    assert_eq!(input, bytes.concat());
}

#[test]
fn a_program_that_is_not_there_is_an_error() {
    let mut program = Command::new("no-such-program");
    let cases = prepare_case::cases(SEED);
    assert!(calls(cases, SEED, 1, &mut program, &mut Vec::new()).is_err());
}

#[test]
fn a_buffer_is_as_before_or_read_to_its_end() {
    let read = |mut bytes: &[u8]| {
        let mut buffer = [7, 7];
        let read = read_buffer(&mut bytes, &mut buffer);
        read.map(|()| (buffer, bytes.len())).ok()
    };
    assert_eq!(read(&[0, 99]), Some(([7, 7], 1)));
    assert_eq!(read(&[1, 8, 9, 99]), Some(([8, 9], 1)));
    assert_eq!(read(&[1, 8]), None);
    assert_eq!(read(&[2, 8, 9]), None);
    assert_eq!(read(&[]), None);
}

#[test]
fn numbers_have_four_bytes_each() {
    assert_eq!(numbers([1, 0x0403_0201]), [1, 0, 0, 0, 1, 2, 3, 4]);
}
