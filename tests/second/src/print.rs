//! The house style: an accepted text's own tokens, without those that say nothing, spaced in one manner.

use crate::raw::PRINT_BYTES;
use crate::read::{read, walk, Placed, Walk, Want, GRAMMAR};
use crate::text::Kind;
use crate::{refusal, Refusal};

/// Whether a token of a statement stays in its print: of a run of NOTs the last where their number is odd, TRUE without AND, braces of a rule round two assignments or more, all else.
pub fn stays(statement: &[Placed], at: usize) -> bool {
    let kind = |at: &Placed| at.token.kind;
    let (before, after) = (&statement[..=at], &statement[at + 1..]);
    match (statement[at].want, statement[at].token.kind) {
        (_, Kind::Not) if kind(&after[0]) == Kind::Not => false,
        (_, Kind::Not) => before.iter().rev().take_while(|at| kind(at) == Kind::Not).count() % 2 == 1,
        (_, Kind::True) => kind(&after[0]) != Kind::And,
        (Want::TrueOver, Kind::And) => false,
        (Want::Assignments, Kind::Open) => after.iter().any(|at| kind(at) == Kind::Comma),
        (Want::ListedOver, Kind::Close) => before.iter().any(|at| kind(at) == Kind::Comma),
        _ => true,
    }
}

/// What stands before a token in a printed statement that it does not open.
pub fn space(kind: Kind) -> &'static str {
    match kind {
        Kind::Comma | Kind::Semicolon => "",
        _ => " ",
    }
}

/// The lines of a walked text's print, given which tokens stay and what stands between two of them.
pub fn lines(
    text: &[u8],
    walk: &Walk,
    stays: impl Fn(&[Placed], usize) -> bool,
    between: impl Fn(Kind, Kind) -> &'static str,
) -> Vec<Vec<u8>> {
    let statements = walk.placed.split_inclusive(|at| at.token.kind == Kind::Semicolon);
    let ended = statements.filter(|statement| statement[0].token.kind != Kind::End);
    let line = |statement: &[Placed]| {
        let mut line = Vec::new();
        let mut last = None;
        for at in (0..statement.len()).filter(|at| stays(statement, *at)) {
            let token = statement[at].token;
            line.extend(last.map_or("", |last| between(last, token.kind)).as_bytes());
            line.extend(token.word(text));
            last = Some(token.kind);
        }
        line.push(b'\n');
        line
    };
    ended.map(line).collect()
}

/// The text in the house style, whatever its length; it must be accepted.
pub fn styled(text: &[u8]) -> Vec<u8> {
    lines(text, &walk(text, GRAMMAR), stays, |_, next| space(next)).concat()
}

/// The print of an accepted text, or 34.
pub fn print_of(text: &[u8]) -> Result<Vec<u8>, Refusal> {
    let print = styled(text);
    if print.len() > PRINT_BYTES {
        Err(refusal(34, 0))
    } else {
        Ok(print)
    }
}

/// The print of a text, or its refusal 10 to 18, 34.
pub fn printed(text: &[u8]) -> Result<Vec<u8>, Refusal> {
    read(text).and_then(|_| print_of(text))
}

/// Writes a print into an output: its length, or 33.
pub fn put(print: &[u8], output: &mut [u8]) -> Result<usize, Refusal> {
    let front = output.get_mut(..print.len()).ok_or_else(|| refusal(33, 0))?;
    front.copy_from_slice(print);
    Ok(print.len())
}
