//! The stored texts to be printed, each with the length of its output, and the lines of what an engine makes of them.

use crate::engine::Engine;

/// What an output holds before a print, and the bytes of it that stand after those lent.
const BEFORE: u8 = 165;
const MARGIN: usize = 16;

/// A number in so many bytes from the front of an input, the most significant first.
pub fn number(input: &mut &[u8], bytes: usize) -> usize {
    let (front, rest) = input.split_at(bytes);
    *input = rest;
    front.iter().fold(0, |so_far, byte| so_far * 256 + usize::from(*byte))
}

/// A length in two bytes and so many bytes, from the front of an input.
pub fn stretch<'a>(input: &mut &'a [u8]) -> &'a [u8] {
    let length = number(input, 2);
    let (front, rest) = input.split_at(length);
    *input = rest;
    front
}

/// A text from the front of an input: the number of its parts, and each after how many times it stands.
pub fn text(input: &mut &[u8]) -> Vec<u8> {
    let parts = number(input, 1);
    let part = |_| {
        let times = number(input, 2);
        stretch(input).repeat(times)
    };
    (0..parts).flat_map(part).collect()
}

/// The lines of a print or of rules, equal neighbours once, each after how many they are.
pub fn counted(all: &[u8]) -> Vec<u8> {
    let mut lines: Vec<(usize, &[u8])> = Vec::new();
    for line in all.split_inclusive(|byte| *byte == b'\n') {
        match lines.last_mut() {
            Some((count, last)) if *last == line => *count += 1,
            _ => lines.push((1, line)),
        }
    }
    lines.into_iter().flat_map(|(count, line)| [format!("{count} ").as_bytes(), line].concat()).collect()
}

/// What an engine makes of one text: its outcome, how many bytes of the output beyond the print are as before, the print.
fn printing(engine: &mut dyn Engine, text: &[u8], room: usize) -> Vec<u8> {
    let mut output = vec![BEFORE; room + MARGIN];
    let result = engine.print(text, &mut output[..room]);
    let outcome = match result {
        Ok(length) => format!("printed {length}"),
        Err(why) => format!("refused {} {}", why.number, why.second),
    };
    let (print, beyond) = output.split_at(result.unwrap_or(0));
    let kept = beyond.iter().filter(|byte| **byte == BEFORE).count();
    [format!("{outcome} kept {kept}\n").into_bytes(), counted(print)].concat()
}

/// The lines for an input.
pub fn output(engine: &mut dyn Engine, mut input: &[u8]) -> Vec<u8> {
    let mut written = Vec::new();
    for case in 1.. {
        if input.is_empty() {
            break;
        }
        let room = number(&mut input, 3);
        let text = text(&mut input);
        written.extend(format!("print {case}\n").into_bytes());
        written.extend(printing(engine, &text, room));
    }
    written
}
