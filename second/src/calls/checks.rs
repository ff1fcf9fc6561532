//! What the tests check alike of the cases of every call.

use super::*;
use std::fmt::Debug;

/// An answer as the other program gives it.
pub fn answer_bytes(before: &Answer, answer: &Answer) -> Vec<u8> {
    let written = if answer.written == before.written {
        vec![0]
    } else {
        [&[1][..], &answer.written].concat()
    };
    [&answer.reply[..], &written, &answer.signs].concat()
}

/// The right answer to a case as the other program gives it.
pub fn right_answer(case: &impl Case) -> Vec<u8> {
    answer_bytes(&case.before(), &case.expected().1)
}

/// Right answers are read as such, to their end.
pub fn assert_right_answers_are_read<C: Case>(cases: impl Iterator<Item = C>) {
    for case in cases {
        let bytes = right_answer(&case);
        let mut rest = &bytes[..];
        let answer = read_answer(case.before(), &mut rest).expect("a whole answer");
        assert_eq!(answer, case.expected().1);
        assert_eq!(rest, []);
    }
}

/// Another sign is a difference, and an answer that is cut anywhere an error.
pub fn assert_wrong_answers_are_told(case: &impl Case) {
    let (_, right) = case.expected();
    let bytes = right_answer(case);
    for sign in 0..right.signs.len() {
        let mut wrong = bytes.clone();
        wrong[bytes.len() - 1 - sign] = 0;
        let answer = read_answer(case.before(), &mut &wrong[..]).expect("a whole answer");
        assert_ne!(answer, right);
    }
    for length in 0..bytes.len() {
        assert!(read_answer(case.before(), &mut &bytes[..length]).is_err());
    }
}

/// This many cases at least are accepted, each other reply of the call is met
/// more than `refused` times, and no reply that the call does not give.
pub fn assert_replies<C: Case>(cases: impl Iterator<Item = C>, accepted: usize, refused: usize) {
    let mut counts = [0; REPLIES];
    for case in cases {
        counts[case.expected().0.number as usize] += 1;
    }
    assert!(counts[0] >= accepted, "{counts:?}");
    for (number, &count) in counts.iter().enumerate() {
        let is_given = C::REPLIES.contains(&number);
        assert!(!is_given || count > refused, "{counts:?}");
        assert!(is_given || count == 0, "{counts:?}");
    }
}

/// A seed gives the same cases each time, and another seed gives others behind
/// the fixed ones.
pub fn assert_seed_settles<C, I>(cases: impl Fn(u64) -> I, fixed: usize)
where
    C: Case + Debug + PartialEq,
    I: Iterator<Item = C>,
{
    assert!(cases(5).take(200).eq(cases(5).take(200)));
    assert!(cases(5).take(fixed).eq(cases(6).take(fixed)));
    let mut pairs = cases(5).zip(cases(6)).skip(fixed).take(100);
    assert!(pairs.any(|(one, other)| one != other));
}
