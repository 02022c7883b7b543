//! Why there is no document.

use crate::call;
use crate::document::Position;
use crate::MAX_DEPTH;
use std::fmt;

/// Why there is no document.
#[derive(Clone, Debug, PartialEq, Eq)]
#[non_exhaustive]
pub enum Error {
    /// The source isn't a document, or exceeds a limit.
    Syntax(SyntaxError),
    /// Memory ran out.
    OutOfMemory,
    /// The source has 4 GiB or more.
    SourceTooLong,
    /// The depth is above [`MAX_DEPTH`].
    InvalidLimit,
}

impl Error {
    /// The error with the name of its source, as that of its file. Only [`Error::Syntax`] has a name; other errors stay as they are.
    ///
    /// ```
    /// let parse = |source, name: &str| firthnapkin::parse(source).map_err(|error| error.with_source_name(name));
    /// assert_eq!(parse("{ a ) }", "pets.graphql").unwrap_err().to_string(), "Unexpected \")\". At pets.graphql:1:5");
    /// ```
    pub fn with_source_name(mut self, name: impl Into<String>) -> Self {
        if let Error::Syntax(error) = &mut self {
            error.source_name = Some(name.into());
        }
        self
    }
}

/// Why a source isn't a document within the limits, and where.
#[derive(Clone, Debug, PartialEq, Eq)]
pub struct SyntaxError {
    /// The error, without its position.
    pub message: String,
    /// What is wrong.
    pub kind: ErrorKind,
    /// What is wrong, if the kind is [`ErrorKind::Lexical`].
    pub detail: Option<ErrorDetail>,
    /// The positions of a token, a spread or an operation, or of zero width. Lines and columns are counted from 0.
    pub start: Position,
    /// The position after its last character.
    pub end: Position,
    /// The name of the source, if [`Error::with_source_name`] gave it one.
    pub source_name: Option<String>,
}

impl SyntaxError {
    /// The line, counted from 1. Lines end at line feeds.
    pub fn line(&self) -> u32 {
        self.start.line + 1
    }

    /// The column in characters, counted from 1.
    pub fn column(&self) -> u32 {
        self.start.column + 1
    }

    /// The lines around the error, numbered from 1, with a caret below its character, and no line feed at the end:
    ///
    /// ```
    /// let source = "query {\n  a )\n}";
    /// if let Err(firthnapkin::Error::Syntax(error)) = firthnapkin::parse(source) {
    ///     let lines = ["1 | query {", "2 |   a )", "  |     ^", "3 | }"];
    ///     assert_eq!(error.excerpt(source).unwrap(), lines.join("\n"));
    /// }
    /// ```
    ///
    /// The source is the one that has the error. Nothing if the error starts within a character of it or after its end, or
    /// memory ran out.
    pub fn excerpt(&self, source: &str) -> Option<String> {
        call::excerpt(source, self.start.byte)
    }
}

/// The kind of a [`SyntaxError`].
#[derive(Clone, Copy, Debug, PartialEq, Eq)]
#[non_exhaustive]
pub enum ErrorKind {
    // tables.toml: errors as variants without invalid_scalar
    /// No document could have the token there.
    UnexpectedToken,
    /// The source ends within a document.
    UnexpectedEnd,
    /// There is no token here: the detail says why.
    Lexical,
    /// The token is nested too deep.
    TooDeep,
    /// The token is the first past the limit.
    TooManyTokens,
    /// The spread names no fragment of the document.
    UnknownFragment,
    /// The spread is within the fragment that it names, itself or through others.
    FragmentCycle,
    // tables.toml: end
    /// The operation exceeds a limit, with every fragment expanded: the message has the number and the limit.
    OperationTooLarge,
}

/// Why there is no token, with the character if there is one.
#[derive(Clone, Copy, Debug, PartialEq, Eq)]
#[non_exhaustive]
pub enum ErrorDetail {
    // tables.toml: details as variants without none, invalid_number
    /// No token begins with the character.
    UnknownCharacter(char),
    /// A token has begun, and the character can't follow.
    UnexpectedCharacter(char),
    /// The source or the line ends within a string.
    UnterminatedString,
    /// The character is not allowed in a string.
    UnknownCharacterInString(char),
    /// What follows a backslash in a string is no escape.
    UnknownEscape,
    /// The source ends within a token.
    UnexpectedEndInToken,
    // tables.toml: end
}

impl ErrorKind {
    pub(crate) fn of(number: u32) -> Self {
        match number {
            // tables.toml: errors as arms without invalid_scalar
            0 => ErrorKind::UnexpectedToken,
            1 => ErrorKind::UnexpectedEnd,
            2 => ErrorKind::Lexical,
            3 => ErrorKind::TooDeep,
            4 => ErrorKind::TooManyTokens,
            6 => ErrorKind::UnknownFragment,
            7 => ErrorKind::FragmentCycle,
            // tables.toml: end
            _ => unreachable!("the library reports no other kind"),
        }
    }
}

impl ErrorDetail {
    pub(crate) fn of(number: u32, character: u32) -> Option<Self> {
        let character = char::from_u32(character).unwrap_or(char::REPLACEMENT_CHARACTER);
        match number {
            // tables.toml: details as arms of some without none, invalid_number
            1 => Some(ErrorDetail::UnknownCharacter(character)),
            2 => Some(ErrorDetail::UnexpectedCharacter(character)),
            3 => Some(ErrorDetail::UnterminatedString),
            4 => Some(ErrorDetail::UnknownCharacterInString(character)),
            5 => Some(ErrorDetail::UnknownEscape),
            6 => Some(ErrorDetail::UnexpectedEndInToken),
            // tables.toml: end
            _ => None,
        }
    }
}

/// Writes the error and its line and column, both counted from 1, as `Unexpected ")". At 2:5`. The name of the source is before
/// them, if it was given one, as it is: `Unexpected ")". At pets.graphql:2:5`.
impl fmt::Display for SyntaxError {
    fn fmt(&self, f: &mut fmt::Formatter<'_>) -> fmt::Result {
        write!(f, "{}. At ", self.message)?;
        if let Some(name) = &self.source_name {
            write!(f, "{name}:")?;
        }
        write!(f, "{}:{}", self.line(), self.column())
    }
}

impl fmt::Display for Error {
    fn fmt(&self, f: &mut fmt::Formatter<'_>) -> fmt::Result {
        match self {
            Error::Syntax(error) => error.fmt(f),
            Error::OutOfMemory => f.write_str("memory ran out"),
            Error::SourceTooLong => f.write_str("the source has 4 GiB or more"),
            Error::InvalidLimit => write!(f, "the depth is above {MAX_DEPTH}"),
        }
    }
}

impl std::error::Error for SyntaxError {}

impl std::error::Error for Error {}

impl From<SyntaxError> for Error {
    fn from(error: SyntaxError) -> Self {
        Error::Syntax(error)
    }
}
