//! The tokens of a source, and its canonical text.

use firthnapkin::{canonical, parse, tokens, tokens_within, Error, ErrorKind, Position, SyntaxError, TokenKind};

const WHOLE: &str = "#é\n{a(b:\"é𝄞\\\"\" c:\"\"\" \n𝄞\"\"\"),...F} -1 0.5 [!$@=:|]";

fn position_at(text: &str, byte: usize) -> Position {
    let before = &text[..byte];
    let line = before.rsplit('\n').next().unwrap();
    Position {
        index: before.chars().count() as u32,
        line: before.matches('\n').count() as u32,
        column: line.chars().count() as u32,
        byte: byte as u32,
    }
}

#[test]
fn each_kind() {
    use TokenKind::*;
    let wanted = [
        (CurlyOpen, "{", "{"),
        (Name, "a", "a"),
        (ParenOpen, "(", "("),
        (Name, "b", "b"),
        (Colon, ":", ":"),
        (String, "\"é𝄞\\\"\"", "é𝄞\\\""),
        (Name, "c", "c"),
        (Colon, ":", ":"),
        (BlockString, "\"\"\" \n𝄞\"\"\"", " \n𝄞"),
        (ParenClose, ")", ")"),
        (Ellipsis, "...", "..."),
        (Name, "F", "F"),
        (CurlyClose, "}", "}"),
        (Int, "-1", "-1"),
        (Float, "0.5", "0.5"),
        (BracketOpen, "[", "["),
        (ExclamationMark, "!", "!"),
        (Dollar, "$", "$"),
        (At, "@", "@"),
        (Equals, "=", "="),
        (Colon, ":", ":"),
        (Pipe, "|", "|"),
        (BracketClose, "]", "]"),
        (EndOfFile, "", ""),
    ];
    let found = tokens(WHOLE).unwrap();
    assert_eq!(found.iter().map(|it| (it.kind(), it.text(), it.unquoted())).collect::<Vec<_>>(), wanted);
    let mut at = 0;
    for token in found.iter() {
        at = if token.text().is_empty() { WHOLE.len() } else { at + WHOLE[at..].find(token.text()).unwrap() };
        let (start, end) = (position_at(WHOLE, at), position_at(WHOLE, at + token.text().len()));
        assert_eq!((token.start(), token.end()), (start, end));
        assert_eq!((token.line(), token.column()), (start.line + 1, start.column + 1));
        at += token.text().len();
    }
    assert_eq!((found.len(), found.is_empty(), found.source(), found.get(24)), (24, false, WHOLE, None));
    let third = found.get(3).unwrap();
    assert_eq!(third.excerpt().unwrap().lines().nth(2), Some("  |    ^"));
    assert_eq!(
        (format!("{third:?}"), found.iter().next_back().map(|it| it.kind())),
        ("Name(\"b\")".into(), Some(EndOfFile))
    );
    // The texts borrow from the source, not from the tokens.
    let text = third.text();
    drop(found);
    assert_eq!(text, "b");
}

/// Numbers of tokens around the capacities that are tried, and large ones.
#[test]
fn many_tokens() {
    for count in [0, 1, 15, 16, 17, 18, 100, 5000, 300_000] {
        for part in ["a ", "!"] {
            let source = part.repeat(count);
            let found = tokens(&source).unwrap();
            let last = found.get(count).unwrap();
            assert_eq!(
                (found.len(), last.kind(), last.start().byte as usize),
                (count + 1, TokenKind::EndOfFile, source.len())
            );
        }
    }
    assert_eq!(tokens(") type {").unwrap().len(), 4);
    assert_eq!(tokens(&"{".repeat(100_000)).unwrap().len(), 100_001);
}

#[test]
fn canonical_texts() {
    let (seams, spaced) = ("1a\"\"".repeat(100_000), "1 a \"\" ".repeat(100_000));
    for (source, wanted) in [
        ("", ""),
        (" # all\n,", ""),
        ("{ a, b(c: \"d\") } # all", "{a b(c:\"d\")}"),
        ("\u{feff}query Q ($v : [ T ! ] = 1) { a ... on T { b } ...F }", "query Q($v:[T!]=1){a ...on T{b}...F}"),
        (") } type", ")}type"),
        ("a\r\nb\tc", "a b c"),
        (&seams, spaced.trim()),
    ] {
        assert_eq!(canonical(source).as_deref(), Ok(wanted));
    }
}

fn syntax<T: std::fmt::Debug>(result: Result<T, Error>) -> SyntaxError {
    match result {
        Err(Error::Syntax(error)) => error,
        other => panic!("{other:?}"),
    }
}

#[test]
fn lexical_errors() {
    let long = "a".repeat(5000) + "\"\\é";
    for (source, words) in [
        ("} é ?", "Unknown character \"é\". At 1:3"),
        ("a\n01", "Unexpected character \"1\". At 2:2"),
        ("{{{ \"é", "Unterminated string literal. At 1:7"),
        ("# é\n-", "Unexpected end of input. At 2:2"),
        (&long, "Unknown escape sequence \"\\é\" in string. At 1:5003"),
    ] {
        for error in [syntax(tokens(source)), syntax(canonical(source)), syntax(parse(source))] {
            assert_eq!((error.kind, error.to_string().as_str()), (ErrorKind::Lexical, words));
        }
    }
}

#[test]
fn limits() {
    let whole = tokens(WHOLE).unwrap();
    for most in [23, 24, u32::MAX] {
        assert_eq!(tokens_within(WHOLE, most).unwrap().len(), 24);
    }
    for (most, token) in whole.iter().enumerate().take(23) {
        let error = syntax(tokens_within(WHOLE, most as u32));
        assert_eq!((error.kind, error.message.as_str()), (ErrorKind::TooManyTokens, "Too many tokens"));
        assert_eq!((error.start, error.end), (token.start(), token.end()));
    }
}
