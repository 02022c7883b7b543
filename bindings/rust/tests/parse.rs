//! What the crate gives for sources and depths of every kind.

use firthnapkin::{
    parse, Document, Error, ErrorDetail, ErrorKind, Kind, Limits, NodeValue, Position, SyntaxError, MAX_DEPTH,
};

fn position(index: u32, line: u32, column: u32, byte: u32) -> Position {
    Position { index, line, column, byte }
}

fn parse_within(source: &str, depth: u32) -> Result<Document<'_>, Error> {
    firthnapkin::parse_within(source, Limits { depth, ..Limits::default() })
}

fn error_of(source: &str, depth: u32) -> SyntaxError {
    match parse_within(source, depth) {
        Err(Error::Syntax(error)) => error,
        other => panic!("{source:.40}: {other:?}"),
    }
}

/// What gqlcheck writes for a source.
fn lines(source: &str) -> String {
    match parse(source) {
        Ok(document) => document.nodes().map(line).collect::<Vec<_>>().join("\n"),
        // gqlcheck counts from 0, and says nothing of schemas and of descriptions.
        Err(Error::Syntax(error)) => {
            let message = [
                ": this is a schema's definition, not a request's",
                ": a description before a request isn't in the specification of October 2021",
            ]
            .iter()
            .fold(error.message.as_str(), |message, words| message.trim_end_matches(words));
            format!("{message}. At {}:{}", error.start.line, error.start.column)
        }
        Err(error) => error.to_string(),
    }
}

/// gqlcheck's word for a kind.
fn word_of(kind: Kind) -> String {
    match kind {
        Kind::FragmentDefinition => "fragment".to_string(),
        Kind::VariableDefinitions => "variables".to_string(),
        Kind::VariableDefinition => "variable".to_string(),
        Kind::FragmentSpread => "spread".to_string(),
        Kind::InlineFragment => "inline".to_string(),
        Kind::Variable => "reference".to_string(),
        Kind::ObjectField => "key".to_string(),
        _ => format!("{kind:?}").to_lowercase(),
    }
}

fn line(node: firthnapkin::Node) -> String {
    let (kind, start, end) = (node.kind(), node.start().index, node.end().index);
    let word = word_of(kind);
    let named = |name: &str| format!("{word} {start} {end} {name}");
    match (kind, node.value(), node.name()) {
        (Kind::Type, NodeValue::Text(text), _) => named(text),
        (Kind::FragmentDefinition, NodeValue::Text(condition), Some(name)) => named(&format!("{name} {condition}")),
        (_, NodeValue::Int(_) | NodeValue::Boolean(_) | NodeValue::Number(_), _) => format!("scalar {start} {end}"),
        (Kind::String | Kind::BlockString, _, _) => format!("scalar {start} {end}"),
        (_, _, Some(name)) => named(name),
        _ => format!("{word} {start} {end}"),
    }
}

fn bytes_of(digits: &str) -> Vec<u8> {
    let digits = digits.trim_matches('-');
    (0..digits.len()).step_by(2).map(|i| u8::from_str_radix(&digits[i..i + 2], 16).unwrap()).collect()
}

/// The rows of the language: `tests/rows.py` writes them to the file that `FIRTHNAPKIN_ROWS` names.
#[test]
#[ignore = "it takes a file of rows: cargo test -- --include-ignored"]
fn rows() {
    let path = std::env::var("FIRTHNAPKIN_ROWS").expect("FIRTHNAPKIN_ROWS names a file of rows");
    let mut count = 0;
    for row in std::fs::read_to_string(path).unwrap().lines() {
        let (source, wanted) = row.split_once(' ').unwrap();
        // Bytes that are not UTF-8 can't be a `str`.
        let Ok(source) = String::from_utf8(bytes_of(source)) else { continue };
        assert_eq!(lines(&source).as_bytes(), bytes_of(wanted), "{source}");
        count += 1;
    }
    assert!(count >= 1500, "{count} rows");
}

#[test]
fn values() {
    let nines = "9".repeat(5000);
    for (text, kind, value) in [
        ("-7", Kind::Int, NodeValue::Int(-7)),
        ("-0", Kind::Int, NodeValue::Int(0)),
        ("-2147483648", Kind::Int, NodeValue::Int(i32::MIN)),
        ("2147483647", Kind::Int, NodeValue::Int(i32::MAX)),
        ("-2147483649", Kind::LargeInt, NodeValue::Number("-2147483649")),
        ("2147483648", Kind::LargeInt, NodeValue::Number("2147483648")),
        (&nines, Kind::LargeInt, NodeValue::Number(&nines)),
        ("-1.5", Kind::Float, NodeValue::Number("-1.5")),
        ("1e400", Kind::Float, NodeValue::Number("1e400")),
        ("true", Kind::Boolean, NodeValue::Boolean(true)),
        ("false", Kind::Boolean, NodeValue::Boolean(false)),
        ("null", Kind::Null, NodeValue::Nothing),
        (r#""\u00e9\n𝄞""#, Kind::String, NodeValue::Text("é\n𝄞")),
        ("\"\"\"\n  x\n \"\"\"", Kind::BlockString, NodeValue::Text("x")),
        ("E", Kind::Enum, NodeValue::Text("E")),
        ("$v", Kind::Variable, NodeValue::Text("v")),
    ] {
        let source = format!("{{ a(b: {text}) }}");
        let document = parse(&source).unwrap();
        let node = document.node(4).unwrap();
        assert_eq!((node.kind(), node.value()), (kind, value));
        assert_eq!(node.text(), text);
        assert_eq!(node.name(), matches!(kind, Kind::Enum | Kind::Variable).then(|| text.trim_start_matches('$')));
    }
}

#[test]
fn documents() {
    let source = "query Q($v: [T ! ]) { x: a(b: $v) { c } ...F }\n# é𝄞\nfragment F on T { d(e: \"é𝄞\") }".to_string();
    let document = parse(&source).unwrap();
    let indexes = |children: firthnapkin::Children| children.map(|node| node.index()).collect::<Vec<_>>();
    assert_eq!(indexes(document.definitions()), [0, 11]);
    assert_eq!(indexes(document.node(0).unwrap().children()), [1, 4, 10]);
    assert_eq!(indexes(document.node(4).unwrap().children()), [5, 6, 9]);
    assert_eq!(document.node(3).unwrap().value(), NodeValue::Text("[T!]"));
    assert_eq!(document.node(11).unwrap().value(), NodeValue::Text("T"));
    let last = document.nodes().next_back().unwrap();
    assert_eq!((last.text(), last.value()), ("\"é𝄞\"", NodeValue::Text("é𝄞")));
    assert_eq!((last.start(), last.end()), (position(75, 2, 23, 79), position(79, 2, 27, 87)));
    assert_eq!((document.len(), document.nodes().len(), document.is_empty()), (16, 16, false));
    assert_eq!(document.node(16), None);
    // Names, texts and the source borrow from the source, not from the document.
    let node = document.node(4).unwrap();
    let (name, text, whole) = (node.name(), node.text(), document.source());
    drop(document);
    assert_eq!((name, text, whole), (Some("a"), "x: a(b: $v) { c }", source.as_str()));
}

/// A node is equal to itself, and to no other node of its document or of another one, though both are alike.
#[test]
fn equal_nodes() {
    let source = "{ a a }";
    let (first, second) = (parse(source).unwrap(), parse(source).unwrap());
    let copy = first.clone();
    for (i, node) in first.nodes().enumerate() {
        for (k, other) in first.nodes().enumerate() {
            assert_eq!(node == other, i == k);
            assert_eq!(node != other, i != k);
        }
        assert!([&second, &copy].iter().all(|document| document.nodes().all(|other| node != other)));
    }
}

#[test]
fn many_nodes() {
    let source = format!("{{{}}}", "a{b}".repeat(35_000));
    let document = parse(&source).unwrap();
    let query = document.node(0).unwrap();
    assert_eq!((document.len(), query.descendants(), query.children().count()), (70_001, 70_000, 35_000));
    for i in [1, 127, 129, 255, 257, 32_767, 32_769, 65_535, 65_537, 69_999] {
        let node = document.node(i).unwrap();
        assert_eq!((node.index(), node.text(), node.name()), (i, "a{b}", Some("a")));
        assert_eq!(node.children().map(|child| (child.index(), child.text())).collect::<Vec<_>>(), [(i + 1, "b")]);
    }
}

#[test]
fn errors() {
    use ErrorKind::*;
    let deep = "{a".repeat(201);
    let far = format!("#é{}{})", "\n".repeat(70_000), " ".repeat(70_001));
    for (source, kind, detail, start, end, words) in [
        ("{\n  a )\n}", UnexpectedToken, None, (6, 1, 4, 6), (7, 1, 5, 7), "Unexpected \")\". At 2:5"),
        ("", UnexpectedEnd, None, (0, 0, 0, 0), (0, 0, 0, 0), "Unexpected end of input. At 1:1"),
        ("#é\n{ a", UnexpectedEnd, None, (6, 1, 3, 7), (6, 1, 3, 7), "Unexpected end of input. At 2:4"),
        (
            "{ é }",
            Lexical,
            Some(ErrorDetail::UnknownCharacter('é')),
            (2, 0, 2, 2),
            (2, 0, 2, 2),
            "Unknown character \"é\". At 1:3",
        ),
        (
            "{ .a }",
            Lexical,
            Some(ErrorDetail::UnexpectedCharacter('.')),
            (2, 0, 2, 2),
            (2, 0, 2, 2),
            "Unexpected character \".\". At 1:3",
        ),
        (
            "{a(b:\"c",
            Lexical,
            Some(ErrorDetail::UnterminatedString),
            (7, 0, 7, 7),
            (7, 0, 7, 7),
            "Unterminated string literal. At 1:8",
        ),
        (
            "{a(b:\"\0\")}",
            Lexical,
            Some(ErrorDetail::UnknownCharacterInString('\0')),
            (6, 0, 6, 6),
            (6, 0, 6, 6),
            "Unknown character \"\0\" in string literal. At 1:7",
        ),
        (
            "{a(b:\"\\q\")}",
            Lexical,
            Some(ErrorDetail::UnknownEscape),
            (7, 0, 7, 7),
            (7, 0, 7, 7),
            "Unknown escape sequence \"\\q\" in string. At 1:8",
        ),
        (
            "{a(b:-",
            Lexical,
            Some(ErrorDetail::UnexpectedEndInToken),
            (6, 0, 6, 6),
            (6, 0, 6, 6),
            "Unexpected end of input. At 1:7",
        ),
        (&deep, TooDeep, None, (400, 0, 400, 400), (401, 0, 401, 401), "Too deeply nested. At 1:401"),
        // A token may be written like the end of a message.
        ("{ \"a. At b\" }", UnexpectedToken, None, (2, 0, 2, 2), (11, 0, 11, 11), "Unexpected \"\"a. At b\"\". At 1:3"),
        (
            "{ \"a. At 1:1\" }",
            UnexpectedToken,
            None,
            (2, 0, 2, 2),
            (13, 0, 13, 13),
            "Unexpected \"\"a. At 1:1\"\". At 1:3",
        ),
        // Indexes, lines, columns and bytes that 16 bits don't hold.
        (
            &far,
            UnexpectedToken,
            None,
            (140_003, 70_000, 70_001, 140_004),
            (140_004, 70_000, 70_002, 140_005),
            "Unexpected \")\". At 70001:70002",
        ),
    ] {
        let error = error_of(source, 200);
        assert_eq!((error.kind, error.detail), (kind, detail), "{source}");
        let (a, b) = (position(start.0, start.1, start.2, start.3), position(end.0, end.1, end.2, end.3));
        assert_eq!((error.start, error.end, error.to_string()), (a, b, words.to_string()));
        assert_eq!(
            words.rsplit_once(". At ").map(|it| it.1.to_string()),
            Some(format!("{}:{}", error.line(), error.column()))
        );
        assert_eq!(Some(error.message.as_str()), words.rsplit_once(". At ").map(|it| it.0));
        let error: Box<dyn std::error::Error> = Box::new(Error::Syntax(error));
        assert_eq!(error.to_string(), words);
    }
    for length in [1, 200, 242, 243, 244, 255, 256, 257, 5000] {
        let name = "n".repeat(length);
        assert_eq!(error_of(&format!("query a {name}"), 9).to_string(), format!("Unexpected \"{name}\". At 1:9"));
    }
}

/// Characters of one to four bytes.
#[test]
fn characters_of_errors() {
    for character in ['?', 'é', 'ж', '\u{ff}', '\u{100}', '\u{ffff}', '\u{10000}', '𝄞', '\u{10ffff}'] {
        let unknown = error_of(&format!("{{ {character} }}"), 9);
        assert_eq!(unknown.detail, Some(ErrorDetail::UnknownCharacter(character)));
        assert_eq!(unknown.to_string(), format!("Unknown character \"{character}\". At 1:3"));
        let unexpected = error_of(&format!("{{a(b:-{character}"), 9);
        assert_eq!(unexpected.detail, Some(ErrorDetail::UnexpectedCharacter(character)));
        assert_eq!(unexpected.to_string(), format!("Unexpected character \"{character}\". At 1:7"));
    }
}

#[test]
fn words_of_errors() {
    assert_eq!(Error::OutOfMemory.to_string(), "memory ran out");
    assert_eq!(Error::SourceTooLong.to_string(), "the source has 4 GiB or more");
    assert_eq!(Error::InvalidLimit.to_string(), "the depth is above 1000");
    assert_eq!(Error::Syntax(error_of("{", 9)).to_string(), "Unexpected end of input. At 1:2");
}

fn deep(depth: usize) -> String {
    "{a".repeat(depth) + &"}".repeat(depth)
}

#[test]
fn depths() {
    for source in [deep(200_000).as_str(), "{a}", ""] {
        for depth in [MAX_DEPTH + 1, 1 << 31, u32::MAX, -1i32 as u32] {
            assert!(matches!(parse_within(source, depth), Err(Error::InvalidLimit)));
        }
    }
    for depth in [0, 1, 2, 199, 200, MAX_DEPTH] {
        let source = deep(depth as usize);
        if depth > 0 {
            assert_eq!(parse_within(&source, depth).unwrap().len(), depth as usize + 1);
        }
        let error = error_of(&deep(depth as usize + 1), depth);
        assert_eq!((error.kind, error.start.byte), (ErrorKind::TooDeep, 2 * depth));
    }
    assert_eq!(parse(&deep(200)).unwrap().len(), 201);
    assert_eq!(error_of(&deep(201), 200), error_of(&deep(201), firthnapkin::DEFAULT_DEPTH));
}

#[test]
fn tokens() {
    let within = |source: &'static str, tokens| {
        firthnapkin::parse_within(source, Limits { depth: 5, tokens, ..Limits::default() })
    };
    let source = "{ a(b: \"é\") ...F }";
    let starts = [0, 2, 3, 4, 5, 7, 10, 12, 15, 17];
    for tokens in [10, 11, u32::MAX - 1, u32::MAX] {
        assert!(within(source, tokens).is_ok());
    }
    for (tokens, start) in starts.into_iter().enumerate() {
        match within(source, tokens as u32) {
            Err(Error::Syntax(error)) => {
                assert_eq!((error.kind, error.detail, error.start.index), (ErrorKind::TooManyTokens, None, start));
                assert_eq!(error.to_string(), format!("Too many tokens. At 1:{}", start + 1));
            }
            other => panic!("{tokens} tokens: {other:?}"),
        }
    }
    let many = format!("{{{}", "a ".repeat(1_000_001));
    for tokens in [65_535, 65_536, 65_537, 999_999, 1_000_000, 1_000_001, 1_000_002] {
        let kind = if tokens == 1_000_002 { ErrorKind::UnexpectedEnd } else { ErrorKind::TooManyTokens };
        match firthnapkin::parse_within(&many, Limits { depth: 5, tokens, ..Limits::default() }) {
            Err(Error::Syntax(error)) => assert_eq!((error.kind, error.start.byte), (kind, 2 * tokens - 1)),
            other => panic!("{tokens} tokens: {:?}", other.map(|document| document.len())),
        }
    }
    // No error after the first token too many counts, and there is no token after a lexical error.
    let kind = |source, tokens| match within(source, tokens) {
        Err(Error::Syntax(error)) => error.kind,
        other => panic!("{other:?}"),
    };
    assert_eq!(kind("{ a ) } \"", 2), ErrorKind::TooManyTokens);
    assert_eq!(kind("{ a ) } \"", 4), ErrorKind::Lexical);
    assert_eq!(kind("{ a ) }", 4), ErrorKind::UnexpectedToken);
    assert_eq!(kind("{a{b{c{d{e{f}}}}}}", 17), ErrorKind::TooManyTokens);
    assert_eq!(kind("{a{b{c{d{e{f}}}}}}", 18), ErrorKind::TooDeep);
}

#[test]
fn sources() {
    for source in ["", "\0", "{a\0}", "\u{feff}", "{}", "#", "\"", "\"\"\"", "\u{10ffff}"] {
        error_of(source, 200);
    }
    let large = format!("{{{}}}", ("a".repeat(63) + " ").repeat(1 << 20));
    let document = parse(&large).unwrap();
    assert_eq!((document.len(), document.node(0).unwrap().end().byte), ((1 << 20) + 1, (1 << 26) + 2));
    assert_eq!(error_of(&format!("{{{}", "a".repeat(1 << 26)), 9).start.byte, (1 << 26) + 1);
    let strings = format!("{{a(b:[{}])}}", "\"\\n0123456789\" ".repeat(5000));
    assert_eq!(parse(&strings).unwrap().nodes().next_back().unwrap().value(), NodeValue::Text("\n0123456789"));
}

#[test]
fn a_document_goes_to_other_threads() {
    fn goes<T: Send + Sync>(_: &T) {}
    let document: Document = parse("{a}").unwrap();
    goes(&document);
    goes(&error_of("{", 9));
}
