//! The text notation: tokens, grammar, nodes.

use crate::answer::{Refusal, Side};
use crate::names::{Fields, Tables};
use crate::policy::{kind, OwnedLists, MOST_NODES};

/// Most parentheses open at once.
pub const MOST_OPEN: usize = 64;

/// A token.
#[derive(Clone, Copy, Debug, PartialEq, Eq)]
enum Token {
    Drop,
    Id,
    Dup,
    Field(u16),
    Number(u16),
    Equals,
    Differs,
    Not,
    Arrow,
    Plus,
    Semicolon,
    Star,
    Open,
    Close,
}

/// A token with its first byte's place.
type Placed = (Token, usize);

/// The number that a word is: digits without leading zeros, to 65,535.
pub fn number_word(word: &[u8]) -> Option<u16> {
    let digits = !word.is_empty() && word.iter().all(u8::is_ascii_digit);
    if !digits || word.len() > 5 || (word[0] == b'0' && word.len() > 1) {
        return None;
    }
    let number = word
        .iter()
        .fold(0u32, |number, digit| number * 10 + u32::from(digit - b'0'));
    u16::try_from(number).ok()
}

/// The names that a text may use: those of its side's table.
#[derive(Clone, Copy)]
struct Names<'a>(&'a Fields, Side);

/// The token that a word is.
fn word_token(names: Names, word: &[u8]) -> Option<Token> {
    match word {
        b"drop" => Some(Token::Drop),
        b"id" => Some(Token::Id),
        b"dup" => Some(Token::Dup),
        _ => match names.0.number(names.1, word) {
            Some(field) => Some(Token::Field(field)),
            None => number_word(word).map(Token::Number),
        },
    }
}

/// The token at the head of a non-empty text, and its length.
fn head(names: Names, text: &[u8]) -> Option<(Token, usize)> {
    let token = match text {
        [b'=', ..] => (Token::Equals, 1),
        [b'!', b'=', ..] => (Token::Differs, 2),
        [b'!', ..] => (Token::Not, 1),
        [b'<', b'-', ..] => (Token::Arrow, 2),
        [b'+', ..] => (Token::Plus, 1),
        [b';', ..] => (Token::Semicolon, 1),
        [b'*', ..] => (Token::Star, 1),
        [b'(', ..] => (Token::Open, 1),
        [b')', ..] => (Token::Close, 1),
        _ => {
            let length = text
                .iter()
                .position(|byte| !byte.is_ascii_alphanumeric())
                .unwrap_or(text.len());
            (word_token(names, &text[..length])?, length)
        }
    };
    Some(token)
}

/// Splits a text into tokens; 14 where that fails.
fn tokens(names: Names, text: &[u8]) -> Result<Vec<Placed>, Refusal> {
    let mut tokens = Vec::new();
    let mut at = 0;
    while at < text.len() {
        if matches!(text[at], b' ' | b'\t') {
            at += 1;
            continue;
        }
        let (token, length) = head(names, &text[at..]).ok_or(Refusal::new(14, at))?;
        tokens.push((token, at));
        at += length;
    }
    Ok(tokens)
}

/// 15: too many open parentheses, whatever the grammar says.
fn test_parentheses(tokens: &[Placed]) -> Result<(), Refusal> {
    let mut open = 0usize;
    for &(token, at) in tokens {
        match token {
            Token::Open => open += 1,
            Token::Close => open = open.saturating_sub(1),
            _ => {}
        }
        if open > MOST_OPEN {
            return Err(Refusal::new(15, at));
        }
    }
    Ok(())
}

/// Reads tokens into nodes by recursive descent; parentheses alone deepen the recursion.
struct Parser<'a> {
    tokens: &'a [Placed],
    next: usize,
    end: usize,
    nodes: Nodes,
}

/// Nodes read so far. Past the limit they are only counted.
#[derive(Default)]
struct Nodes {
    lists: OwnedLists,
    count: usize,
}

impl Nodes {
    /// Appends a node and says its number; numbers past the limit mean nothing and are never read.
    fn push(&mut self, kind: u8, first: u16, second: u16) -> u16 {
        self.count += 1;
        if self.count <= MOST_NODES {
            self.lists.push(kind, first, second)
        } else {
            0
        }
    }
}

impl Parser<'_> {
    fn peek(&self) -> Option<Token> {
        self.tokens.get(self.next).map(|&(token, _)| token)
    }

    /// Takes the token if it is this one.
    fn take(&mut self, token: Token) -> bool {
        let found = self.peek() == Some(token);
        self.next += usize::from(found);
        found
    }

    /// 16 at the token that should be next, or at the end.
    fn unexpected(&self) -> Refusal {
        let place = self.tokens.get(self.next).map_or(self.end, |&(_, at)| at);
        Refusal::new(16, place)
    }

    fn sum(&mut self) -> Result<u16, Refusal> {
        let mut left = self.sequence()?;
        while self.take(Token::Plus) {
            let right = self.sequence()?;
            left = self.nodes.push(kind::SUM, left, right);
        }
        Ok(left)
    }

    fn sequence(&mut self) -> Result<u16, Refusal> {
        let mut left = self.starred()?;
        while self.take(Token::Semicolon) {
            let right = self.starred()?;
            left = self.nodes.push(kind::SEQUENCE, left, right);
        }
        Ok(left)
    }

    fn starred(&mut self) -> Result<u16, Refusal> {
        let mut item = self.item()?;
        while self.take(Token::Star) {
            item = self.nodes.push(kind::STAR, item, 0);
        }
        Ok(item)
    }

    /// An item with its negations, which are a loop: a text may have a million of them.
    fn item(&mut self) -> Result<u16, Refusal> {
        let first = self.next;
        while self.take(Token::Not) {}
        let negations = self.next - first;
        let mut item = self.plain_item()?;
        for _ in 0..negations {
            item = self.nodes.push(kind::NOT, item, 0);
        }
        Ok(item)
    }

    fn plain_item(&mut self) -> Result<u16, Refusal> {
        let token = self.peek().ok_or_else(|| self.unexpected())?;
        let constant = match token {
            Token::Drop => kind::DROP,
            Token::Id => kind::ID,
            Token::Dup => kind::DUP,
            Token::Field(field) => return self.field(field),
            Token::Open => return self.parenthesised(),
            _ => return Err(self.unexpected()),
        };
        self.next += 1;
        Ok(self.nodes.push(constant, 0, 0))
    }

    fn field(&mut self, field: u16) -> Result<u16, Refusal> {
        self.next += 1;
        let act = match self.peek() {
            Some(Token::Equals) => kind::EQUALS,
            Some(Token::Differs) => kind::DIFFERS,
            Some(Token::Arrow) => kind::SET,
            _ => return Err(self.unexpected()),
        };
        self.next += 1;
        let value = match self.peek() {
            Some(Token::Number(value)) => value,
            _ => return Err(self.unexpected()),
        };
        self.next += 1;
        Ok(self.nodes.push(act, field, value))
    }

    fn parenthesised(&mut self) -> Result<u16, Refusal> {
        self.next += 1;
        let inner = self.sum()?;
        if self.take(Token::Close) {
            Ok(inner)
        } else {
            Err(self.unexpected())
        }
    }
}

/// The nodes of a side's text of at most `room` nodes. Tests 14 to 17.
pub fn nodes(fields: &Fields, side: Side, text: &[u8], room: usize) -> Result<OwnedLists, Refusal> {
    let tokens = tokens(Names(fields, side), text)?;
    test_parentheses(&tokens)?;
    let mut parser = Parser {
        tokens: &tokens,
        next: 0,
        end: text.len(),
        nodes: Nodes::default(),
    };
    parser.sum()?;
    if parser.next < tokens.len() {
        return Err(parser.unexpected());
    }
    let Nodes { lists, count } = parser.nodes;
    if count > room.min(MOST_NODES) {
        return Err(Refusal::new(17, count));
    }
    Ok(lists)
}

/// Reads a side's text into lent lists and answers the node count. Tests the tables, then 14 to 17; a refusal writes
/// nothing.
pub fn read(
    tables: Tables,
    side: Side,
    text: &[u8],
    kind: &mut [u8],
    first: &mut [u16],
    second: &mut [u16],
) -> Result<usize, Refusal> {
    let room = kind.len().min(first.len()).min(second.len());
    let nodes = nodes(&Fields::new(tables)?, side, text, room)?;
    let count = nodes.kind.len();
    kind[..count].copy_from_slice(&nodes.kind);
    first[..count].copy_from_slice(&nodes.first);
    second[..count].copy_from_slice(&nodes.second);
    Ok(count)
}
