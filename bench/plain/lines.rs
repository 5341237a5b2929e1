//! A line is read, done and answered.
use crate::case::{Answer, Case};
use std::fmt::Write as _;

/// The number that a text begins with, and the text after it.
pub(crate) fn number(text: &[u8]) -> Option<(i64, &[u8])> {
    let (negative, digits) = match text {
        [b'-', rest @ ..] => (true, rest),
        _ => (false, text),
    };
    let count = digits
        .iter()
        .take_while(|byte| byte.is_ascii_digit())
        .count();
    if count == 0 || count > 10 || (digits[0] == b'0' && (count > 1 || negative)) {
        return None;
    }
    let size = digits[..count]
        .iter()
        .fold(0, |n, byte| 10 * n + i64::from(byte - b'0'));
    Some((if negative { -size } else { size }, &digits[count..]))
}

/// All numbers of a text, each after one blank: at most 512.
pub(crate) fn read_numbers(mut text: &[u8], numbers: &mut Vec<i64>) -> Option<()> {
    numbers.clear();
    while let [b' ', rest @ ..] = text {
        let (n, rest) = number(rest)?;
        if numbers.len() == 512 {
            return None;
        }
        numbers.push(n);
        text = rest;
    }
    text.is_empty().then_some(())
}

pub(crate) fn naturals(numbers: &[i64]) -> bool {
    numbers.iter().all(|n| (0..=4_294_967_295).contains(n))
}

pub(crate) fn integers(numbers: &[i64]) -> bool {
    numbers
        .iter()
        .all(|n| (-2_147_483_648..=2_147_483_647).contains(n))
}

/// Does what the line asks and writes the reply without its first word; none if the line is not of the form.
pub(crate) fn answer(
    case: &mut Case,
    line: &[u8],
    numbers: &mut Vec<i64>,
    reply: &mut String,
) -> Option<Answer<()>> {
    if line.len() > 4_095 {
        return None;
    }
    let length = line
        .iter()
        .position(|byte| *byte == b' ')
        .unwrap_or(line.len());
    read_numbers(&line[length..], numbers)?;
    let done = match (&line[..length], numbers.as_slice()) {
        (b"edge", n) if n.len() == 5 && naturals(n) => {
            case.edge(n).map(|x| _ = write!(reply, " {x}"))
        }
        (b"row", [relation, k, rest @ ..]) if integers(numbers) => case
            .row(*relation, *k, rest)
            .map(|x| _ = write!(reply, " {x}")),
        (b"seal", []) => case.seal().map(|(s, e)| _ = write!(reply, " {s} {e}")),
        (b"claim", [count, rest @ ..]) => {
            let (turns, tree) = rest.split_at_checked(usize::try_from(*count).ok()?)?;
            if !naturals(turns) || !integers(tree) {
                return None;
            }
            case.claim(turns, tree)
                .map(|(c, r)| _ = write!(reply, " {c} {r}"))
        }
        (b"void", tree) if integers(tree) => case.void(tree),
        (b"step", []) => case.step().map(|edge| {
            _ = match edge {
                Some(x) => write!(reply, " {x}"),
                None => write!(reply, " done"),
            }
        }),
        (b"withdraw", []) => case.withdraw(),
        (b"told", []) => {
            let (stage, (c, r), steps, left) = case.told();
            _ = write!(reply, " {stage} {c} {r} {steps} {left}");
            Ok(())
        }
        _ => return None,
    };
    Some(done)
}
