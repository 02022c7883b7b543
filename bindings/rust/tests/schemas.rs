//! What errors say of definitions that no document has, and of descriptions.

use firthnapkin::{parse, parse_within, tokens, Error, Limits, SyntaxError, MAX_DEPTH};

const SCHEMA: &str = ": this is a schema's definition, not a request's";
const DESCRIPTION: &str = ": a description before a request isn't in the specification of October 2021";

fn error_of(source: &str, limits: Limits) -> SyntaxError {
    match parse_within(source, limits) {
        Err(Error::Syntax(error)) => error,
        other => panic!("{source:.60}: {other:?}"),
    }
}

/// Fails unless a source is refused at this byte with this message.
fn expect(source: &str, byte: usize, message: &str) {
    let error = error_of(source, Limits { depth: MAX_DEPTH, ..Limits::default() });
    assert_eq!((error.message.as_str(), error.start.byte as usize), (message, byte), "{source:.60}");
}

/// What may be before a definition: nothing, a comment, and documents, the last as deep as any may be.
fn before_definitions() -> [String; 5] {
    let depth = MAX_DEPTH as usize;
    let deepest = "{a".repeat(depth) + &"}".repeat(depth);
    ["", "# é\n", "{ a } ", "fragment F on T { a }", &deepest].map(String::from)
}

/// The first token of a schema's definition, or of its description, is an error that says so.
#[test]
fn schemas() {
    for before in before_definitions() {
        for word in "type schema extend directive scalar interface union enum input".split(' ') {
            let message = format!("Unexpected \"{word}\"{SCHEMA}");
            expect(&format!("{before}{word} A {{ b: C }}"), before.len(), &message);
            let message = format!("Unexpected \"\"text\"\"{SCHEMA}");
            expect(&format!("{before}\"text\" {word} A {{ b: C }}"), before.len(), &message);
        }
    }
    let limits = Limits { depth: 5, tokens: 0, ..Limits::default() };
    assert_eq!(error_of("type A", limits).message, "Too many tokens");
    parse("{ type { schema(input: enum) } } query type { extend } fragment enum on union { scalar }").unwrap();
}

/// A description before an operation or a fragment is an error that says so.
#[test]
fn descriptions() {
    for begin in [
        "query Q { a }",
        "query{a}",
        "mutation($b: C) { a }",
        "subscription { a }",
        "{ a }",
        "{",
        "fragment F on T { a }",
        "query )",
    ] {
        for before in before_definitions() {
            let message = format!("Unexpected \"\"text\"\"{DESCRIPTION}");
            expect(&format!("{before}\"text\" {begin}"), before.len(), &message);
        }
    }
    let block = "\"\"\"\n query\n\"\"\"";
    for description in ["\"text\"", "\"\"", "\"query é\"", "\"\"\"text\"\"\"", block, "\"\"\"\"\"\""] {
        for separator in ["", " ", "\n", ",", "\u{feff}", "#, type query\n\t", " # é\n,, # {\r\n"] {
            let message = format!("Unexpected \"{description}\"");
            let source = format!("{{ a }}{description}{separator}query Q {{ a }}");
            expect(&source, 5, &(message.clone() + DESCRIPTION));
            expect(&format!("{description}{separator}union U = A"), 0, &(message + SCHEMA));
        }
    }
}

/// Nothing is said of another unexpected token, and of a description of anything else.
#[test]
fn other_tokens() {
    for (before, source) in [
        ("query type ", "type { a }"),
        ("query Q ", "query { a }"),
        ("{ a } ", "b"),
        ("{ a } ", "} query"),
        ("{ a(b: ", ") type }"),
        ("{ a(b: ", ") query }"),
        ("{ a ", "\"b\" }"),
        ("{ a ", "\"b\" query }"),
        ("query ($a: ", "\"b\") { a }"),
        ("query (", "\"b\" $query: C) { a }"),
        ("", "\"b\""),
        ("{ a } ", "\"b\" # query"),
        ("", "\"b\" A { b: C }"),
        ("", "\"b\" \"c\" query Q { a }"),
        ("", "\"b\" \"query\" { a }"),
        ("", "\"b\" } query { a }"),
        ("", "\"b\" \"\"\"c\"\"\" type A { b: C }"),
        ("", "\"b\" queries Q { a }"),
        ("", "\"b\" Query { a }"),
        ("", "\"b\" on { a }"),
        ("{ a } ", "\"b\" ) query { a }"),
    ] {
        let token = tokens(source).unwrap().iter().next().unwrap().text().to_string();
        expect(&format!("{before}{source}"), before.len(), &format!("Unexpected \"{token}\""));
    }
}
