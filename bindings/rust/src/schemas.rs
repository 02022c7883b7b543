//! What is said of an unexpected token that begins a definition, or the description of one.

use crate::call::{canonical, parse_within, tokens_within};
use crate::error::Error;
use crate::{Limits, MAX_DEPTH};

/// What is said of a schema, which this parser doesn't read.
const SCHEMA: &str = ": this is a schema's definition, not a request's";
/// What is said of the description of an operation or a fragment.
const DESCRIPTION: &str = ": a description before a request isn't in the specification of October 2021";

/// What is said of an unexpected token, from one byte to another, that begins a definition, or the description of one; nothing if
/// it doesn't. What is before a definition is a document, or has no tokens.
pub(crate) fn words_on(source: &str, start: usize, end: usize) -> &'static str {
    let token = &source[start..end];
    let first = if token.starts_with('"') { first_token(&source[end..]) } else { token };
    let words = words_of_definition(first);
    if !words.is_empty() && may_go_on(&source[..start]) {
        words
    } else {
        ""
    }
}

/// What is said of a definition that begins with this token and that no document may have, or not with a description. An operation
/// or a fragment without a description begins at no unexpected token.
fn words_of_definition(token: &str) -> &'static str {
    match token {
        "type" | "schema" | "extend" | "directive" | "scalar" | "interface" | "union" | "enum" | "input" => SCHEMA,
        "query" | "mutation" | "subscription" | "fragment" | "{" => DESCRIPTION,
        _ => "",
    }
}

/// The text of the first token of a source, or nothing if there is none: no token is allowed, so the first is an error.
fn first_token(source: &str) -> &str {
    match tokens_within(source, 0) {
        Err(Error::Syntax(found)) => &source[found.start.byte as usize..found.end.byte as usize],
        _ => "",
    }
}

/// Whether a definition may come after a source: it is a document, or has no tokens.
fn may_go_on(source: &str) -> bool {
    parse_within(source, Limits { depth: MAX_DEPTH, ..Limits::default() }).is_ok()
        || canonical(source).is_ok_and(|text| text.is_empty())
}
