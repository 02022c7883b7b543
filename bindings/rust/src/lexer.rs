//! The tokens of a source.

use crate::call;
use crate::document::Position;
use std::fmt;

/// The kind of a token.
#[derive(Clone, Copy, Debug, PartialEq, Eq, Hash)]
#[non_exhaustive]
#[repr(u32)]
pub enum TokenKind {
    // tables.toml: tokens
    /// The end of the source, which has no characters.
    EndOfFile = 0,
    /// A name or a word of the language.
    Name = 1,
    /// A text between quotes.
    String = 2,
    /// A text between three quotes on each side.
    BlockString = 3,
    /// A number with a fraction or an exponent.
    Float = 4,
    /// A number without either.
    Int = 5,
    /// `!`
    ExclamationMark = 6,
    /// `$`
    Dollar = 7,
    /// `(`
    ParenOpen = 8,
    /// `)`
    ParenClose = 9,
    /// `[`
    BracketOpen = 10,
    /// `]`
    BracketClose = 11,
    /// `{`
    CurlyOpen = 12,
    /// `}`
    CurlyClose = 13,
    /// `...`
    Ellipsis = 14,
    /// `:`
    Colon = 15,
    /// `=`
    Equals = 16,
    /// `@`
    At = 17,
    /// `|`
    Pipe = 18,
    // tables.toml: end
}

/// The kinds by their numbers.
#[rustfmt::skip]
// tables.toml: tokens as a list
const KINDS: [TokenKind; 19] = [
    TokenKind::EndOfFile, TokenKind::Name, TokenKind::String, TokenKind::BlockString, TokenKind::Float, TokenKind::Int,
    TokenKind::ExclamationMark, TokenKind::Dollar, TokenKind::ParenOpen, TokenKind::ParenClose, TokenKind::BracketOpen,
    TokenKind::BracketClose, TokenKind::CurlyOpen, TokenKind::CurlyClose, TokenKind::Ellipsis, TokenKind::Colon,
    TokenKind::Equals, TokenKind::At, TokenKind::Pipe,
];
// tables.toml: end

/// As the library writes it.
#[repr(C)]
#[derive(Clone, Copy, PartialEq, Eq)]
pub(crate) struct RawToken {
    kind: u32,
    quotes: u32,
    start: Position,
    end: Position,
}

/// A source's tokens, the last of which is its end.
#[derive(Clone)]
pub struct Tokens<'a> {
    source: &'a str,
    tokens: Vec<RawToken>,
}

impl<'a> Tokens<'a> {
    pub(crate) fn new(source: &'a str, tokens: Vec<RawToken>) -> Self {
        Tokens { source, tokens }
    }

    /// The source that was cut.
    pub fn source(&self) -> &'a str {
        self.source
    }

    /// How many tokens there are, the end among them.
    pub fn len(&self) -> usize {
        self.tokens.len()
    }

    /// Always false: a source has an end.
    pub fn is_empty(&self) -> bool {
        self.tokens.is_empty()
    }

    /// The token of this index, if there is one.
    pub fn get(&self, index: usize) -> Option<Token<'a>> {
        self.tokens.get(index).map(|&raw| Token { source: self.source, raw })
    }

    /// The tokens, in the order of the source.
    pub fn iter(&self) -> impl ExactSizeIterator<Item = Token<'a>> + DoubleEndedIterator + '_ {
        self.tokens.iter().map(|&raw| Token { source: self.source, raw })
    }
}

impl fmt::Debug for Tokens<'_> {
    fn fmt(&self, f: &mut fmt::Formatter<'_>) -> fmt::Result {
        f.debug_list().entries(self.iter()).finish()
    }
}

/// A token of a source.
#[derive(Clone, Copy, PartialEq, Eq)]
pub struct Token<'a> {
    source: &'a str,
    raw: RawToken,
}

impl<'a> Token<'a> {
    /// What it is.
    pub fn kind(&self) -> TokenKind {
        KINDS[self.raw.kind as usize]
    }

    /// The position of the first character.
    pub fn start(&self) -> Position {
        self.raw.start
    }

    /// The position after the last character.
    pub fn end(&self) -> Position {
        self.raw.end
    }

    /// The line where it starts, counted from 1. Lines end at line feeds.
    pub fn line(&self) -> u32 {
        self.raw.start.line + 1
    }

    /// The column where it starts, in characters, counted from 1.
    pub fn column(&self) -> u32 {
        self.raw.start.column + 1
    }

    /// The text of the token, as it is written. The end has none.
    pub fn text(&self) -> &'a str {
        &self.source[self.raw.start.byte as usize..self.raw.end.byte as usize]
    }

    /// The text without the quotes of a string: escapes and lines are as they are written.
    pub fn unquoted(&self) -> &'a str {
        let quotes = self.raw.quotes as usize;
        &self.source[self.raw.start.byte as usize + quotes..self.raw.end.byte as usize - quotes]
    }

    /// The lines around its start, as [`SyntaxError::excerpt`](crate::SyntaxError::excerpt) has them; nothing if memory runs out.
    pub fn excerpt(&self) -> Option<String> {
        call::excerpt(self.source, self.raw.start.byte)
    }
}

impl fmt::Debug for Token<'_> {
    fn fmt(&self, f: &mut fmt::Formatter<'_>) -> fmt::Result {
        write!(f, "{:?}({:?})", self.kind(), self.text())
    }
}
