//! Errors with the name of their source.

use firthnapkin::{canonical, parse, parse_within, tokens, tokens_within, Error, Limits, SyntaxError};

const NAMES: [&str; 5] = ["", "pets.graphql", "a b:c\n\0{}", "é𝄞", ":"];

fn syntax<T: std::fmt::Debug>(result: Result<T, Error>) -> SyntaxError {
    match result {
        Err(Error::Syntax(error)) => error,
        other => panic!("{other:?}"),
    }
}

/// Each syntax error, of whatever call, shows the name that it gets before the line, and keeps all else.
#[test]
fn names() {
    let limits = Limits { depth: 1, tokens: 9, fields: 1, ..Limits::default() };
    let errors = |source: &str| syntax(parse_within(source, limits));
    let document = parse("{ ...A }").unwrap();
    for (error, before, behind) in [
        (errors("{\n a )"), "Unexpected \")\". At ", "2:4"),
        (errors("{ ?"), "Unknown character \"?\". At ", "1:3"),
        (errors("{a{b}}"), "Too deeply nested. At ", "1:3"),
        (errors("{a b c d e f g h}"), "Too many tokens. At ", "1:17"),
        (errors("query Q {a b}"), "Too many fields in operation \"Q\": 2, with a limit of 1. At ", "1:1"),
        (errors("{...A}"), "Unknown fragment. At ", "1:2"),
        (syntax(document.operations().next().unwrap().complexity()), "Unknown fragment. At ", "1:3"),
        (syntax(tokens("{ ?")), "Unknown character \"?\". At ", "1:3"),
        (syntax(tokens_within("{ a", 1)), "Too many tokens. At ", "1:3"),
        (syntax(canonical("\n\"")), "Unterminated string literal. At ", "2:2"),
    ] {
        assert_eq!((error.source_name.as_deref(), error.to_string()), (None, format!("{before}{behind}")));
        for name in NAMES {
            let named = Error::Syntax(error.clone()).with_source_name(name);
            assert_eq!(named.to_string(), format!("{before}{name}:{behind}"));
            let found = syntax::<()>(Err(named));
            assert_eq!(found, SyntaxError { source_name: Some(name.to_string()), ..error.clone() });
        }
    }
}

/// The last name counts, and other errors have none.
#[test]
fn other_errors() {
    let error = parse("{").unwrap_err().with_source_name("a").with_source_name("b");
    assert_eq!(error.to_string(), "Unexpected end of input. At b:1:2");
    for error in [Error::OutOfMemory, Error::SourceTooLong, Error::InvalidLimit] {
        assert_eq!(error.clone().with_source_name("a"), error);
    }
}
