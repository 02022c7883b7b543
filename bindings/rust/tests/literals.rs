//! Sources that are one value or one type.

use firthnapkin::{
    parse, parse_const_value, parse_type, parse_value, Enum, Error, ErrorKind, Kind, Limits, OwnedValue, SyntaxError,
    Value, Variable, MAX_DEPTH,
};

fn limits(depth: u32, tokens: u32) -> Limits {
    Limits { depth, tokens, ..Limits::default() }
}

/// A value as text that says its type, whatever is in it.
fn shown(value: Value) -> String {
    match value {
        Value::List(list) => format!("[{}]", list.iter().map(shown).collect::<Vec<_>>().join(" ")),
        Value::Object(object) => {
            let fields = object.fields().into_iter().map(|(name, value)| format!("{name}:{}", shown(value)));
            format!("{{{}}}", fields.collect::<Vec<_>>().join(" "))
        }
        other => format!("{other:?}"),
    }
}

const CONSTANTS: [(&str, &str); 12] = [
    ("null", "Null"),
    ("true", "Boolean(true)"),
    ("-7", "Int(-7)"),
    ("99999999999999999999", "Number(\"99999999999999999999\")"),
    ("-1.5e3", "Float(-1500.0)"),
    ("\"\\u00e9\\n\"", "String(\"é\\n\")"),
    ("\"\"\"\n  x\n   y\n \"\"\"", "String(\"x\\n y\")"),
    ("on", "Enum(Enum { name: \"on\" })"),
    ("[]", "[]"),
    ("{}", "{}"),
    ("[1, [E], {a: 1, b: null, a: 2}]", "[Int(1) [Enum(Enum { name: \"E\" })] {a:Int(2) b:Null}]"),
    ("\u{feff} # é\n ,7, #", "Int(7)"),
];

#[test]
fn values() {
    for (source, wanted) in CONSTANTS {
        for call in [parse_value, parse_const_value] {
            assert_eq!(shown(call(source, Limits::default()).unwrap().value()), wanted);
        }
        let document = format!("{{a(b:{source}\n)}}");
        let document = parse(&document).unwrap();
        let argument = document.operation(None).unwrap().selections().next().unwrap().as_field().unwrap().argument("b");
        assert_eq!(shown(argument.unwrap().value()), wanted);
    }
    let parsed = parse_value("[$a E]", Limits::default()).unwrap();
    let Value::List(list) = parsed.value() else { panic!("a list") };
    let wanted = [Value::Variable(Variable { name: "a" }), Value::Enum(Enum { name: "E" })];
    assert_eq!(list.iter().collect::<Vec<_>>(), wanted);
}

#[test]
fn types() {
    for (source, wanted) in
        [("T", "T"), ("ID!", "ID!"), ("[T]", "[T]"), (" [ [ T ] , ! ] #é\n!\n", "[[T]!]!"), ("\u{feff}on", "on")]
    {
        assert_eq!(parse_type(source, Limits::default()).unwrap().as_str(), wanted);
    }
}

/// They have places, and a document that has their nodes and no definitions.
#[test]
fn parts() {
    let source = "# é\n  [\"𝄞\" {a: 1}]";
    let parsed = parse_value(source, Limits::default()).unwrap();
    let node = parsed.node();
    assert_eq!((node.kind(), node.line(), node.column(), node.text()), (Kind::List, 2, 3, "[\"𝄞\" {a: 1}]"));
    assert_eq!(node.excerpt().unwrap(), "1 | # é\n2 |   [\"𝄞\" {a: 1}]\n  |   ^");
    let last = parsed.document().nodes().last().unwrap();
    assert_eq!((last.kind(), last.start().index, last.start().byte), (Kind::Int, 15, 19));
    let kind = parse_type(" [ T ]", Limits::default()).unwrap();
    assert_eq!((kind.node().kind(), kind.node().text(), kind.node().column()), (Kind::Type, "[ T ]", 2));
    for (document, length) in [(parsed.document(), 5), (kind.document(), 1)] {
        assert_eq!(document.len(), length);
        assert!(document.source().ends_with(document.node(0).unwrap().text()));
        assert_eq!(document.definitions().count() + document.operations().count() + document.fragments().count(), 0);
        assert!(document.operation(None).is_none() && document.fragment("F").is_none());
    }
}

/// Names and texts outlive the value, and an owned one outlives its source.
#[test]
fn kept() {
    fn is_kept<T: Send + Sync + 'static>(_: &T) {}
    let text = parse_value("[é]".replace('é', "E").leak(), Limits::default()).unwrap().node().text();
    assert_eq!(text, "[E]");
    let owned: OwnedValue = {
        let source = String::from(" {a: \"é\"}");
        parse_value(&source, Limits::default()).unwrap().into_owned()
    };
    is_kept(&owned);
    assert_eq!((owned.source(), shown(owned.parsed().value())), (" {a: \"é\"}", String::from("{a:String(\"é\")}")));
    // The source, three nodes, and what the string means.
    assert_eq!(owned.heap_size(), 10 + 3 * 64 + 2);
    let again = owned.clone();
    assert_eq!(again.parsed().node().text(), owned.parsed().node().text());
    assert_eq!(owned.parsed().node(), owned.parsed().node());
    assert_ne!(again.parsed().node(), owned.parsed().node());
}

fn error_of<T: std::fmt::Debug>(found: Result<T, Error>) -> SyntaxError {
    match found {
        Err(Error::Syntax(error)) => error,
        other => panic!("{other:?}"),
    }
}

#[test]
fn errors() {
    let value = |source| error_of(parse_value(source, Limits::default()).map(|it| it.document().len()));
    let constant = |source| error_of(parse_const_value(source, Limits::default()).map(|it| it.document().len()));
    let kind = |source| error_of(parse_type(source, Limits::default()).map(|it| it.document().len()));
    for (error, message, start, end) in [
        (value(""), "Unexpected end of input", 0, 0),
        (value("1 2"), "Unexpected \"2\"", 2, 3),
        (value("{a}"), "Unexpected \"}\"", 2, 3),
        (value("query Q { a }"), "Unexpected \"Q\"", 6, 7),
        (value("[é]"), "Unknown character \"é\"", 1, 1),
        (constant("$a"), "Unexpected \"$\"", 0, 1),
        (constant("[1, {a: $b}]"), "Unexpected \"$\"", 8, 9),
        (kind("T!!"), "Unexpected \"!\"", 2, 3),
        (kind("[T"), "Unexpected end of input", 2, 2),
        // Nothing is said of schemas and descriptions, since no document is wanted.
        (kind("{ a }"), "Unexpected \"{\"", 0, 1),
        (kind("\"d\" type T"), "Unexpected \"\"d\"\"", 0, 3),
    ] {
        assert_eq!((error.message.as_str(), error.start.byte, error.end.byte), (message, start, end));
    }
    assert_eq!(value("[\n 1 )]").excerpt("[\n 1 )]").unwrap(), "1 | [\n2 |  1 )]\n  |    ^");
}

#[test]
fn limits_of_each() {
    for (source, depth, tokens) in [("[{a: $b}]", 2, 8), ("[{a: 7}]", 2, 7)] {
        assert!(parse_value(source, limits(depth, tokens)).is_ok());
        assert_eq!(error_of(parse_value(source, limits(depth, tokens - 1))).kind, ErrorKind::TooManyTokens);
        assert_eq!(error_of(parse_value(source, limits(depth - 1, tokens))).kind, ErrorKind::TooDeep);
    }
    assert!(parse_const_value("[[1]]", limits(2, 5)).is_ok());
    assert_eq!(error_of(parse_const_value("[[1]]", limits(1, 5))).kind, ErrorKind::TooDeep);
    assert!(parse_type("[[T]!]!", limits(2, 7)).is_ok());
    assert_eq!(error_of(parse_type("[[T]!]!", limits(2, 6))).kind, ErrorKind::TooManyTokens);
    assert_eq!(error_of(parse_type("[[T]!]!", limits(1, 7))).kind, ErrorKind::TooDeep);
    for depth in [MAX_DEPTH + 1, u32::MAX] {
        assert!(matches!(parse_value("1", limits(depth, 9)), Err(Error::InvalidLimit)));
        assert!(matches!(parse_type("T", limits(depth, 9)), Err(Error::InvalidLimit)));
    }
    // Those on operations say nothing of a value or a type.
    let none = Limits { fields: 0, aliases: 0, directives: 0, root_fields: 0, field_depth: 0, ..Limits::default() };
    assert!(parse_value("{a: 1}", none).is_ok() && parse_type("T", none).is_ok());
}

/// More nodes and texts than are allocated at first, and nesting as deep as it may be.
#[test]
fn large() {
    let source = format!("[{}]", "1 ".repeat(10_000));
    let parsed = parse_value(&source, Limits::default()).unwrap();
    let Value::List(list) = parsed.value() else { panic!("a list") };
    assert_eq!(list.iter().count(), 10_000);
    let text = "é".repeat(10_000);
    let source = format!("\"{text}\"");
    assert_eq!(parse_const_value(&source, Limits::default()).unwrap().value(), Value::String(&text));
    let source = format!("{}T{}", "[".repeat(1000), "!]".repeat(1000));
    assert_eq!(parse_type(&source, limits(MAX_DEPTH, u32::MAX)).unwrap().as_str(), source);
}
