//! Tokens of rule text, sixteen bytes at a time.

use std::arch::x86_64::*;

use crate::table::Name;

/// The most bytes of a name.
pub const NAME: usize = 24;

/// What a token is.
#[derive(Clone, Copy, PartialEq, Eq, Debug)]
pub enum Kind {
    Slot,
    When,
    If,
    Then,
    And,
    Not,
    True,
    None,
    Name,
    Open,
    Close,
    Comma,
    Semicolon,
    ChangesTo,
    Was,
    Becomes,
    Bad,
    End,
}

/// A name's bytes, zero after the last: two names are the same where these are.
pub type Key = [u64; 3];

/// What a byte begins: white, a name, or the kind of a mark.
#[derive(Clone, Copy, PartialEq, Eq)]
enum Begins {
    White,
    Name,
    Mark(Kind),
    Pair(Kind),
    Nothing,
}

/// What each byte begins.
const BEGINS: [Begins; 256] = {
    let mut table = [Begins::Nothing; 256];
    let mut byte = 0;
    while byte < 256 {
        table[byte] = match byte as u8 {
            9 | 10 | 13 | 32 => Begins::White,
            b'0'..=b'9' | b'A'..=b'Z' | b'a'..=b'z' => Begins::Name,
            b'{' => Begins::Mark(Kind::Open),
            b'}' => Begins::Mark(Kind::Close),
            b',' => Begins::Mark(Kind::Comma),
            b';' => Begins::Mark(Kind::Semicolon),
            b'*' => Begins::Pair(Kind::ChangesTo),
            b'|' => Begins::Pair(Kind::Was),
            b':' => Begins::Pair(Kind::Becomes),
            _ => Begins::Nothing,
        };
        byte += 1;
    }
    table
};

/// The bytes of a short word as a number, the first lowest.
const fn number(word: &[u8]) -> u64 {
    let (mut number, mut at) = (0, word.len());
    while at > 0 {
        at -= 1;
        number = number << 8 | word[at] as u64;
    }
    number
}

const SLOT: u64 = number(b"SLOT");
const WHEN: u64 = number(b"WHEN");
const IF: u64 = number(b"IF");
const THEN: u64 = number(b"THEN");
const AND: u64 = number(b"AND");
const NOT: u64 = number(b"NOT");
const TRUE: u64 = number(b"TRUE");
const NONE: u64 = number(b"NONE");

/// The kind of a word of at most four bytes.
#[inline]
fn word_kind(word: u64) -> Kind {
    match word {
        SLOT => Kind::Slot,
        WHEN => Kind::When,
        IF => Kind::If,
        THEN => Kind::Then,
        AND => Kind::And,
        NOT => Kind::Not,
        TRUE => Kind::True,
        NONE => Kind::None,
        _ => Kind::Name,
    }
}

/// Walks over a text; after each token it has the token's place and, for a name, its key.
pub struct Scanner<'a> {
    text: &'a [u8],
    at: usize,
    start: usize,
    pub size: usize,
    pub key: Key,
}

impl<'a> Scanner<'a> {
    /// At the start of a text.
    pub fn new(text: &'a [u8]) -> Scanner<'a> {
        Scanner { text, at: 0, start: 0, size: 0, key: [0; 3] }
    }

    /// Where the name just scanned stands.
    #[inline]
    pub fn name(&self) -> Name {
        Name { start: self.start as u32, size: self.size as u32 }
    }

    /// The next token.
    #[inline]
    pub fn token(&mut self) -> Kind {
        loop {
            let Some(byte) = self.text.get(self.at) else {
                return Kind::End;
            };
            match BEGINS[*byte as usize] {
                Begins::White => self.pass_white(),
                Begins::Name => return self.word(),
                Begins::Mark(kind) => {
                    self.at += 1;
                    return kind;
                }
                Begins::Pair(kind) if self.text.get(self.at + 1) == Some(&b'=') => {
                    self.at += 2;
                    return kind;
                }
                _ => return Kind::Bad,
            }
        }
    }

    /// Passes over white space: one byte mostly, sixteen at a time where there is more.
    #[inline]
    fn pass_white(&mut self) {
        self.at += 1;
        if self.text.get(self.at).is_some_and(|byte| BEGINS[*byte as usize] == Begins::White) {
            self.at = run_end(self.text, self.at, white);
        }
    }

    /// The word here: a reserved one or a name.
    #[inline]
    fn word(&mut self) -> Kind {
        self.start = self.at;
        self.at = run_end(self.text, self.at, named);
        self.size = self.at - self.start;
        if self.size > NAME {
            return Kind::Name;
        }
        self.key = key(self.text, self.start, self.size);
        if self.size <= 4 {
            word_kind(self.key[0])
        } else {
            Kind::Name
        }
    }
}

/// Which of sixteen bytes may stand in a name.
#[inline]
fn named(bytes: __m128i) -> u32 {
    // SAFETY: every x86-64 processor has these.
    unsafe {
        let within = |from: __m128i, first: u8, last: u8| {
            let offset = _mm_sub_epi8(from, _mm_set1_epi8(first as i8));
            _mm_cmpeq_epi8(_mm_min_epu8(offset, _mm_set1_epi8((last - first) as i8)), offset)
        };
        let letters = within(_mm_or_si128(bytes, _mm_set1_epi8(0x20)), b'a', b'z');
        let digits = within(bytes, b'0', b'9');
        let dashes = _mm_cmpeq_epi8(bytes, _mm_set1_epi8(b'-' as i8));
        _mm_movemask_epi8(_mm_or_si128(_mm_or_si128(letters, digits), dashes)) as u32
    }
}

/// Which of sixteen bytes are white.
#[inline]
fn white(bytes: __m128i) -> u32 {
    // SAFETY: every x86-64 processor has these.
    unsafe {
        let is = |byte: u8| _mm_cmpeq_epi8(bytes, _mm_set1_epi8(byte as i8));
        let spaces = _mm_or_si128(is(32), is(10));
        _mm_movemask_epi8(_mm_or_si128(spaces, _mm_or_si128(is(9), is(13)))) as u32
    }
}

/// Where a run of bytes ends, the text's end at most.
#[inline]
fn run_end(text: &[u8], from: usize, which: impl Fn(__m128i) -> u32) -> usize {
    let mut at = from;
    loop {
        let mask = which(sixteen(text, at));
        if mask != 0xFFFF {
            return at + mask.trailing_ones() as usize;
        }
        at += 16;
    }
}

/// Sixteen bytes from a position, zero beyond the end.
#[inline]
fn sixteen(text: &[u8], at: usize) -> __m128i {
    let mut padded = [0; 16];
    let bytes = match text.get(at..at + 16) {
        Some(bytes) => bytes,
        None => {
            let rest = text.get(at..).unwrap_or(&[]);
            padded[..rest.len()].copy_from_slice(rest);
            &padded[..]
        }
    };
    // SAFETY: there are sixteen bytes.
    unsafe { _mm_loadu_si128(bytes.as_ptr().cast()) }
}

/// The key of a name of at most 24 bytes.
#[inline]
fn key(text: &[u8], start: usize, size: usize) -> Key {
    let mut padded = [0; NAME];
    let bytes = match text.get(start..start + NAME) {
        Some(bytes) => bytes,
        None => {
            padded[..size].copy_from_slice(&text[start..start + size]);
            &padded[..]
        }
    };
    let word = |at: usize| {
        let whole = u64::from_le_bytes(bytes[8 * at..8 * at + 8].try_into().unwrap());
        let used = size.saturating_sub(8 * at);
        match used {
            0 => 0,
            8.. => whole,
            _ => whole & !(u64::MAX << (8 * used)),
        }
    };
    [word(0), word(1), word(2)]
}
