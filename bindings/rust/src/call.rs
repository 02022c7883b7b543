//! The calls of the library. All unsafe code is here, except what asks for the thread's stack.

use crate::complexity::{self, Lengths, RawComplexity, Written};
use crate::document::{Document, Position, RawNode, Tree};
use crate::error::{Error, ErrorDetail, ErrorKind, SyntaxError};
use crate::lexer::{RawToken, Tokens};
use crate::{schemas, stack, Limits, MAX_DEPTH};
use std::ptr;

// tables.toml: statuses as numbers without not_utf8, out_of_memory, invalid_error
const OK: u32 = 0;
const SYNTAX_ERROR: u32 = 1;
const TOO_DEEP: u32 = 4;
const TOO_MANY_TOKENS: u32 = 5;
const BUFFER_TOO_SMALL: u32 = 6;
const SOURCE_TOO_LONG: u32 = 7;
const INVALID_LIMIT: u32 = 8;
const UNKNOWN_FRAGMENT: u32 = 10;
const FRAGMENT_CYCLE: u32 = 11;
// tables.toml: end

/// The number of words of limits.
pub(crate) const WORDS: usize = 8;

/// Limits as the library takes them.
pub(crate) type RawLimits = [u32; WORDS];

#[repr(C)]
#[derive(Clone, Copy, Default)]
struct RawError {
    kind: u32,
    detail: u32,
    character: u32,
    start: Position,
    end: Position,
    text_start: u32,
    text_end: u32,
}

/// A call that writes words on an error into a buffer.
type Words = unsafe extern "C" fn(*const u8, usize, *const RawError, *mut u8, usize, *mut usize) -> u32;

extern "C" {
    fn firthnapkin_parse(
        source: *const u8,
        length: usize,
        limits: *const RawLimits,
        nodes: *mut RawNode,
        nodes_capacity: usize,
        nodes_length: *mut usize,
        texts: *mut u8,
        texts_capacity: usize,
        texts_length: *mut usize,
        error: *mut RawError,
    ) -> u32;

    fn firthnapkin_parse_value(
        source: *const u8,
        length: usize,
        constant: u32,
        limits: *const RawLimits,
        nodes: *mut RawNode,
        nodes_capacity: usize,
        nodes_length: *mut usize,
        texts: *mut u8,
        texts_capacity: usize,
        texts_length: *mut usize,
        error: *mut RawError,
    ) -> u32;

    fn firthnapkin_parse_type(
        source: *const u8,
        length: usize,
        limits: *const RawLimits,
        nodes: *mut RawNode,
        nodes_capacity: usize,
        nodes_length: *mut usize,
        texts: *mut u8,
        texts_capacity: usize,
        texts_length: *mut usize,
        error: *mut RawError,
    ) -> u32;

    fn firthnapkin_parse_complexities(
        source: *const u8,
        length: usize,
        limits: *const RawLimits,
        nodes: *mut RawNode,
        nodes_capacity: usize,
        nodes_length: *mut usize,
        texts: *mut u8,
        texts_capacity: usize,
        texts_length: *mut usize,
        complexities: *mut RawComplexity,
        complexities_capacity: usize,
        complexities_length: *mut usize,
        error: *mut RawError,
    ) -> u32;

    fn firthnapkin_message(
        source: *const u8,
        length: usize,
        error: *const RawError,
        buffer: *mut u8,
        buffer_capacity: usize,
        buffer_length: *mut usize,
    ) -> u32;

    fn firthnapkin_excerpt(
        source: *const u8,
        length: usize,
        error: *const RawError,
        buffer: *mut u8,
        buffer_capacity: usize,
        buffer_length: *mut usize,
    ) -> u32;

    fn firthnapkin_tokens(
        source: *const u8,
        length: usize,
        max_tokens: u32,
        tokens: *mut RawToken,
        tokens_capacity: usize,
        tokens_length: *mut usize,
        error: *mut RawError,
    ) -> u32;

    fn firthnapkin_canonical(
        source: *const u8,
        length: usize,
        buffer: *mut u8,
        buffer_capacity: usize,
        buffer_length: *mut usize,
        error: *mut RawError,
    ) -> u32;
}

/// The document that a source is, within [`Limits::default`].
pub fn parse(source: &str) -> Result<Document<'_>, Error> {
    parse_within(source, Limits::default())
}

/// Parses a source within limits. The source is read once, and not at all if the depth is above [`MAX_DEPTH`]. The error of too
/// many tokens is at the first token past the limit, and found before anything is built. The first operation past a limit is an
/// error at its start. With a limit on operations, a reachable spread of an unknown or cyclic fragment is also an error.
pub fn parse_within(source: &str, limits: Limits) -> Result<Document<'_>, Error> {
    within(&limits, || {
        if limits.has_sizes() {
            complexity::measure(source, &limits)
        } else {
            parse_here(Form::Document, source, &limits)
        }
    })
}

/// What a source is parsed as.
#[derive(Clone, Copy, PartialEq)]
pub(crate) enum Form {
    Document,
    Value,
    Constant,
    Type,
}

/// What a source of this form is within these limits, as a document that has it alone.
pub(crate) fn parse_as<'a>(form: Form, source: &'a str, limits: &Limits) -> Result<Document<'a>, Error> {
    within(limits, || parse_here(form, source, limits))
}

/// Whether a source is a document within these limits. If not, the error is that of [`parse_within`]. No document is built, and no
/// memory is taken for one. A source with an operation beyond a limit is read twice.
///
/// ```
/// use firthnapkin::{check, Limits};
/// let limits = Limits { tokens: 1000, field_depth: 2, ..Limits::default() };
/// assert!(check("{ user { name } }", limits).is_ok());
/// assert!(check("{ user { friends { name } } }", limits).is_err());
/// ```
pub fn check(source: &str, limits: Limits) -> Result<(), Error> {
    within(
        &limits,
        || if limits.has_sizes() { complexity::check(source, &limits) } else { check_here(source, &limits) },
    )
}

/// Makes a call within these limits on a stack that suffices. With a depth above [`MAX_DEPTH`] it isn't made.
fn within<R: Send>(limits: &Limits, call: impl FnOnce() -> Result<R, Error> + Send) -> Result<R, Error> {
    if limits.depth > MAX_DEPTH {
        return Err(Error::InvalidLimit);
    }
    stack::with(limits.depth, call).unwrap_or(Err(Error::OutOfMemory))
}

/// How large the operations of a document are whose brackets are nested at most this deep.
pub(crate) fn complexities(source: &str, depth: u32) -> Result<Vec<RawComplexity>, Error> {
    let limits = Limits { depth, ..Limits::default() };
    stack::with(depth, || complexity::measure_alone(source, &limits)).unwrap_or(Err(Error::OutOfMemory))
}

/// The tokens of a source, the last of which is its end. White space, line ends, commas, comments and byte order marks are no
/// tokens. The source may be a document or not; an error is at the first position that has no token.
pub fn tokens(source: &str) -> Result<Tokens<'_>, Error> {
    tokens_within(source, u32::MAX)
}

/// The same with a limit on the number of tokens, the end not counted. The error is at the first token past the limit.
pub fn tokens_within(source: &str, max_tokens: u32) -> Result<Tokens<'_>, Error> {
    stack::with(0, || tokens_here(source, max_tokens)).unwrap_or(Err(Error::OutOfMemory))
}

/// The canonical text of a source, one for each query whatever its white space and comments: its tokens as they are written, with
/// a space between two neighbours of which neither is a punctuator, and before `...` after a token that is no punctuator. The
/// source may be a document or not; an error is at the first position that has no token.
///
/// ```
/// assert_eq!(firthnapkin::canonical("{ a, b(c: 1) } # all")?, "{a b(c:1)}");
/// # Ok::<(), firthnapkin::Error>(())
/// ```
pub fn canonical(source: &str) -> Result<String, Error> {
    stack::with(0, || canonical_here(source)).unwrap_or(Err(Error::OutOfMemory))
}

/// The lines around a byte of a source; nothing if it is within a character or after the end, or memory ran out.
pub(crate) fn excerpt(source: &str, byte: u32) -> Option<String> {
    let error = RawError { start: Position { byte, ..Position::default() }, ..RawError::default() };
    stack::with(0, || words(firthnapkin_excerpt, source, &error)).ok()?.ok()
}

/// How many nodes or tokens are allocated for the first call, at most.
const MOST_AT_FIRST: usize = 1 << 22;

/// How many nodes or tokens are allocated for the first call. Few sources have more than one for four bytes; for others, and for
/// the largest, the second call has the capacity that the first returns. Memory that is not written to costs nothing.
pub(crate) fn at_first(source: &str) -> usize {
    (source.len() / 4).min(MOST_AT_FIRST)
}

/// A parse on this thread's stack.
fn parse_here<'a>(form: Form, source: &'a str, limits: &Limits) -> Result<Document<'a>, Error> {
    let raw = limits.words();
    let (mut nodes_length, mut texts_length) = (at_first(source) + 16, at_first(source) + 64);
    loop {
        let mut nodes: Vec<RawNode> = with_capacity(nodes_length)?;
        let mut texts: Vec<u8> = with_capacity(texts_length)?;
        let mut error = RawError::default();
        let (n, n_capacity, n_length) = (nodes.as_mut_ptr(), nodes.capacity(), &mut nodes_length);
        let (t, t_capacity, t_length) = (texts.as_mut_ptr(), texts.capacity(), &mut texts_length);
        let (s, length, e) = (source.as_ptr(), source.len(), &mut error);
        let constant = u32::from(form == Form::Constant);
        // SAFETY: each pointer refers to as much memory as its capacity says, none overlaps another, and the stack is enough.
        let status = unsafe {
            match form {
                Form::Document => {
                    firthnapkin_parse(s, length, &raw, n, n_capacity, n_length, t, t_capacity, t_length, e)
                }
                Form::Value | Form::Constant => firthnapkin_parse_value(
                    s, length, constant, &raw, n, n_capacity, n_length, t, t_capacity, t_length, e,
                ),
                Form::Type => {
                    firthnapkin_parse_type(s, length, &raw, n, n_capacity, n_length, t, t_capacity, t_length, e)
                }
            }
        };
        if status == OK {
            // SAFETY: the call wrote that many.
            unsafe {
                nodes.set_len(nodes_length);
                texts.set_len(texts_length);
            }
            return Ok(Document::new(source, Tree::new(nodes, text_of(texts), limits.depth)));
        }
        refused_as(form, status, source, &error)?;
    }
}

/// A check on this thread's stack, by a parse without room for nodes and texts. A document has a node, so its status is that a
/// buffer is too small.
fn check_here(source: &str, limits: &Limits) -> Result<(), Error> {
    let raw = limits.words();
    let (mut nodes_length, mut texts_length, mut error) = (0, 0, RawError::default());
    // SAFETY: the capacities are 0, so the pointers may be null, and the stack is enough.
    let status = unsafe {
        firthnapkin_parse(
            source.as_ptr(),
            source.len(),
            &raw,
            ptr::null_mut(),
            0,
            &mut nodes_length,
            ptr::null_mut(),
            0,
            &mut texts_length,
            &mut error,
        )
    };
    refused(status, source, &error)
}

/// Parses into these arrays on this thread's stack, as much as fits. Returns whether all did, and how many there are.
pub(crate) fn measure_into(source: &str, limits: &RawLimits, into: &mut Written) -> Result<(bool, Lengths), Error> {
    let mut found = Lengths { nodes: 0, texts: 0, complexities: 0 };
    let mut error = RawError::default();
    // SAFETY: as above.
    let status = unsafe {
        firthnapkin_parse_complexities(
            source.as_ptr(),
            source.len(),
            limits,
            into.nodes.as_mut_ptr(),
            into.nodes.capacity(),
            &mut found.nodes,
            into.texts.as_mut_ptr(),
            into.texts.capacity(),
            &mut found.texts,
            into.complexities.as_mut_ptr(),
            into.complexities.capacity(),
            &mut found.complexities,
            &mut error,
        )
    };
    if status != OK {
        refused(status, source, &error)?;
    }
    // SAFETY: the call wrote that many.
    unsafe {
        into.nodes.set_len(found.nodes.min(into.nodes.capacity()));
        into.texts.set_len(found.texts.min(into.texts.capacity()));
        into.complexities.set_len(found.complexities.min(into.complexities.capacity()));
    }
    Ok((status == OK, found))
}

/// A call of `tokens` on this thread's stack.
fn tokens_here(source: &str, max_tokens: u32) -> Result<Tokens<'_>, Error> {
    let mut length = at_first(source) + 16;
    loop {
        let mut tokens: Vec<RawToken> = with_capacity(length)?;
        let mut error = RawError::default();
        // SAFETY: as above.
        let status = unsafe {
            firthnapkin_tokens(
                source.as_ptr(),
                source.len(),
                max_tokens,
                tokens.as_mut_ptr(),
                tokens.capacity(),
                &mut length,
                &mut error,
            )
        };
        if status == OK {
            // SAFETY: the call wrote that many.
            unsafe { tokens.set_len(length) };
            return Ok(Tokens::new(source, tokens));
        }
        refused(status, source, &error)?;
    }
}

/// A call of `canonical` on this thread's stack. The text is seldom longer than the source.
fn canonical_here(source: &str) -> Result<String, Error> {
    let mut length = source.len();
    loop {
        let mut text: Vec<u8> = with_capacity(length)?;
        let mut error = RawError::default();
        let (buffer, capacity) = (text.as_mut_ptr(), text.capacity());
        // SAFETY: as above.
        let status =
            unsafe { firthnapkin_canonical(source.as_ptr(), source.len(), buffer, capacity, &mut length, &mut error) };
        if status == OK {
            // SAFETY: the call wrote that many.
            unsafe { text.set_len(length) };
            return Ok(text_of(text));
        }
        refused(status, source, &error)?;
    }
}

/// What a call writes on an error, on this thread's stack.
fn words(call: Words, source: &str, error: &RawError) -> Result<String, Error> {
    let mut length = 256;
    loop {
        let mut words: Vec<u8> = with_capacity(length)?;
        // SAFETY: as above.
        let status =
            unsafe { call(source.as_ptr(), source.len(), error, words.as_mut_ptr(), words.capacity(), &mut length) };
        match status {
            OK => {
                // SAFETY: the call wrote that many.
                unsafe { words.set_len(length) };
                return Ok(text_of(words));
            }
            BUFFER_TOO_SMALL => {}
            _ => return Err(failure(status)),
        }
    }
}

/// What the library writes is UTF-8.
pub(crate) fn text_of(bytes: Vec<u8>) -> String {
    String::from_utf8(bytes).expect("the library writes UTF-8")
}

/// A vector with this capacity, if there is memory.
pub(crate) fn with_capacity<T>(count: usize) -> Result<Vec<T>, Error> {
    let mut items = Vec::new();
    items.try_reserve_exact(count).map_err(|_| Error::OutOfMemory)?;
    Ok(items)
}

/// The error of a status; none if a buffer was too small.
fn refused(status: u32, source: &str, error: &RawError) -> Result<(), Error> {
    refused_as(Form::Document, status, source, error)
}

/// The same of a source that is wanted to be of this form.
fn refused_as(form: Form, status: u32, source: &str, error: &RawError) -> Result<(), Error> {
    match status {
        BUFFER_TOO_SMALL => Ok(()),
        SYNTAX_ERROR | TOO_DEEP | TOO_MANY_TOKENS | UNKNOWN_FRAGMENT | FRAGMENT_CYCLE => {
            Err(error_of(form, source, error)?.into())
        }
        _ => Err(failure(status)),
    }
}

/// A `str` is UTF-8, and the depth is no larger than the largest.
fn failure(status: u32) -> Error {
    match status {
        SOURCE_TOO_LONG => Error::SourceTooLong,
        INVALID_LIMIT => Error::InvalidLimit,
        _ => Error::OutOfMemory,
    }
}

fn error_of(form: Form, source: &str, error: &RawError) -> Result<SyntaxError, Error> {
    let mut message = words(firthnapkin_message, source, error)?;
    let kind = ErrorKind::of(error.kind);
    if form == Form::Document && kind == ErrorKind::UnexpectedToken {
        message.push_str(schemas::words_on(source, error.start.byte as usize, error.end.byte as usize));
    }
    Ok(SyntaxError {
        message,
        kind,
        detail: ErrorDetail::of(error.detail, error.character),
        start: error.start,
        end: error.end,
        source_name: None,
    })
}

#[cfg(test)]
mod tests {
    use super::*;

    #[test]
    fn statuses() {
        assert_eq!([failure(3), failure(SOURCE_TOO_LONG)], [Error::OutOfMemory, Error::SourceTooLong]);
        assert!(matches!(with_capacity::<u64>(usize::MAX / 16), Err(Error::OutOfMemory)));
    }

    /// Each limit goes to its word, and the words that no limit has are 0.
    #[test]
    fn words() {
        let words = |limits: Limits| (limits.words(), limits.sizes());
        let none = [u32::MAX; 5];
        assert_eq!(words(Limits::default()), ([200, u32::MAX, 0, 0, 0, 0, 0, 0], none));
        let limits = |depth, tokens| Limits { depth, tokens, ..Limits::default() };
        assert_eq!(words(limits(7, 9)), ([7, 9, 0, 0, 0, 0, 0, 0], none));
        assert_eq!(words(limits(0, u32::MAX - 1)), ([0, u32::MAX - 1, 0, 0, 0, 0, 0, 0], none));
        let sizes = Limits { fields: 1, aliases: 2, directives: 3, root_fields: 4, field_depth: 5, ..limits(7, 9) };
        assert_eq!(words(sizes), ([7, 9, 0, 0, 0, 0, 0, 0], [1, 2, 3, 4, 5]));
    }
}
