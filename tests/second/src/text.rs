//! The classes of bytes and the tokens of rule text.

/// The class of a byte: 1 white, 2 digit or letter, 3 `-`, 4 a mark of one byte, 5 the first byte of a mark of two, 0 the rest.
pub fn class(byte: u8) -> u8 {
    match byte {
        9 | 10 | 13 | 32 => 1,
        b'0'..=b'9' | b'A'..=b'Z' | b'a'..=b'z' => 2,
        b'-' => 3,
        b'{' | b'}' | b',' | b';' => 4,
        b'*' | b'|' | b':' => 5,
        _ => 0,
    }
}

/// What a token is: a reserved word, a name of any length, a mark, a byte that begins no token, or the end of text.
#[derive(Clone, Copy, PartialEq, Eq, Debug)]
pub enum Kind {
    Slot,
    When,
    If,
    Then,
    And,
    Not,
    True,
    None,
    Name,
    Open,
    Close,
    Comma,
    Semicolon,
    ChangesTo,
    Was,
    Becomes,
    Bad,
    End,
}

/// A token and the stretch of text where it stands.
#[derive(Clone, Copy, PartialEq, Eq, Debug)]
pub struct Token {
    pub kind: Kind,
    pub start: usize,
    pub size: usize,
}

impl Token {
    /// The token's bytes.
    pub fn word<'a>(&self, text: &'a [u8]) -> &'a [u8] {
        &text[self.start..self.start + self.size]
    }
}

/// The reserved words.
const RESERVED: [(&[u8], Kind); 8] = [
    (b"SLOT", Kind::Slot),
    (b"WHEN", Kind::When),
    (b"IF", Kind::If),
    (b"THEN", Kind::Then),
    (b"AND", Kind::And),
    (b"NOT", Kind::Not),
    (b"TRUE", Kind::True),
    (b"NONE", Kind::None),
];

/// The kind of a whole run of name bytes: a reserved word or a name.
fn word_kind(word: &[u8]) -> Kind {
    RESERVED.iter().find(|(reserved, _)| *reserved == word).map_or(Kind::Name, |(_, kind)| *kind)
}

/// The kind of a mark of one byte.
fn mark_kind(byte: u8) -> Kind {
    match byte {
        b'{' => Kind::Open,
        b'}' => Kind::Close,
        b',' => Kind::Comma,
        _ => Kind::Semicolon,
    }
}

/// The kind of a class 5 byte by the byte that follows it.
fn pair_kind(byte: u8, next: Option<&u8>) -> Kind {
    match (byte, next) {
        (b'*', Some(b'=')) => Kind::ChangesTo,
        (b'|', Some(b'=')) => Kind::Was,
        (b':', Some(b'=')) => Kind::Becomes,
        _ => Kind::Bad,
    }
}

/// The token that starts at a position which is not white and not the end.
fn token_at(text: &[u8], start: usize) -> Token {
    let (kind, size) = match class(text[start]) {
        2 => {
            let size = text[start..].iter().take_while(|byte| matches!(class(**byte), 2 | 3)).count();
            (word_kind(&text[start..start + size]), size)
        }
        4 => (mark_kind(text[start]), 1),
        5 => match pair_kind(text[start], text.get(start + 1)) {
            Kind::Bad => (Kind::Bad, 1),
            kind => (kind, 2),
        },
        _ => (Kind::Bad, 1),
    };
    Token { kind, start, size }
}

/// All tokens of a text in order, the end of text last.
pub fn tokens(text: &[u8]) -> Vec<Token> {
    let mut found = Vec::new();
    let mut at = 0;
    while at < text.len() {
        if class(text[at]) == 1 {
            at += 1;
            continue;
        }
        let token = token_at(text, at);
        at += token.size;
        found.push(token);
    }
    found.push(Token { kind: Kind::End, start: text.len(), size: 0 });
    found
}

/// The text cut after each `;`, what follows the last `;` at the end.
pub fn pieces(text: &[u8]) -> Vec<&[u8]> {
    text.split_inclusive(|byte| *byte == b';').collect()
}
