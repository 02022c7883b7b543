//! Two errors, tokens, parts or complexities are equal if all that they show is equal, and not if one thing of it differs.

use firthnapkin::{
    parse, tokens, Complexity, Document, Error, ErrorDetail, ErrorKind, Operation, Position, SyntaxError, Value,
};

/// Tests that each of these is equal to itself, and to none of the others.
macro_rules! distinct {
    ($items:expr) => {
        let items = $items;
        for (i, one) in items.iter().enumerate() {
            for (k, other) in items.iter().enumerate() {
                assert_eq!(one == other, i == k, "{i}: {one:?}, {k}: {other:?}");
            }
        }
    };
}

fn syntax(source: &str) -> SyntaxError {
    match parse(source) {
        Err(Error::Syntax(error)) => error,
        other => panic!("{other:?}"),
    }
}

/// A position with one number that is one more.
fn moved(p: Position) -> [Position; 4] {
    [
        Position { index: p.index + 1, ..p },
        Position { line: p.line + 1, ..p },
        Position { column: p.column + 1, ..p },
        Position { byte: p.byte + 1, ..p },
    ]
}

#[test]
fn errors() {
    let error = syntax("{ a\n ? )");
    assert_eq!(error, syntax("{ a\n ? )"));
    let copy = || error.clone();
    let mut all = vec![
        copy(),
        SyntaxError { message: error.message.clone() + "!", ..copy() },
        SyntaxError { kind: ErrorKind::UnexpectedToken, ..copy() },
        SyntaxError { detail: None, ..copy() },
        SyntaxError { detail: Some(ErrorDetail::UnknownCharacter('!')), ..copy() },
        SyntaxError { detail: Some(ErrorDetail::UnexpectedCharacter('?')), ..copy() },
        SyntaxError { source_name: Some(String::new()), ..copy() },
        SyntaxError { source_name: Some("a".into()), ..copy() },
    ];
    all.extend(moved(error.start).map(|start| SyntaxError { start, ..copy() }));
    all.extend(moved(error.end).map(|end| SyntaxError { end, ..copy() }));
    distinct!(&all);
    let mut errors: Vec<Error> = all.into_iter().map(Error::from).collect();
    errors.extend([Error::OutOfMemory, Error::SourceTooLong, Error::InvalidLimit]);
    distinct!(errors);
    distinct!([
        ErrorKind::UnexpectedToken,
        ErrorKind::UnexpectedEnd,
        ErrorKind::Lexical,
        ErrorKind::TooDeep,
        ErrorKind::TooManyTokens,
        ErrorKind::UnknownFragment,
        ErrorKind::FragmentCycle,
        ErrorKind::OperationTooLarge,
    ]);
}

/// The last tokens of sources before the end. Each differs from the first by one thing: by its words, by one number of its positions
/// or more, if fewer can't differ, by its kind, or by the line that its excerpt shows.
#[test]
fn tokens_of_sources() {
    let sources = [
        "#ab\n a",
        "#ab\n b",
        "#abc\n a",
        "#é\n a",
        "#é\n  a",
        "#a\n\n a",
        "##\n\na",
        "#ab\n aa",
        "#ab\n\"a\"",
        "#ab\n 1",
        "#ab\n 1.",
        "#ac\n a",
        "#ab\n a ",
    ];
    let sources: Vec<&str> = sources.into_iter().filter(|source| tokens(source).is_ok()).collect();
    assert_eq!(sources.len(), 12);
    let last = |source: &'static str| {
        let found = tokens(source).unwrap();
        found.get(found.len() - 2).unwrap()
    };
    distinct!(sources.iter().map(|source| last(source)).collect::<Vec<_>>());
    for source in sources {
        assert_eq!(last(source), last(Box::leak(source.to_string().into_boxed_str())));
    }
    let repeated = tokens("a a ! ! \"\" \"\"").unwrap();
    distinct!(repeated.iter().collect::<Vec<_>>());
}

/// Parts are equal if they are the same part of the same document, whatever they show.
#[test]
fn parts() {
    let source = "query($v: T = [1] @d @d $w: T = [1]) @d @d { a(b: [1] b: [1]) a ...F ...F ...{a} ...{a} } query {a} \
                  fragment F on T {a} fragment F on T {a}";
    let document = parse(source).unwrap();
    let other = parse(source).unwrap();
    fn of<'d, 'a>(document: &'d Document<'a>) -> (Vec<Value<'d, 'a>>, usize) {
        let field = document.operations().next().unwrap().selections().next().unwrap().as_field().unwrap();
        (field.arguments().map(|it| it.value()).collect(), field.arguments().count())
    }
    distinct!(document.operations().chain(other.operations()).collect::<Vec<_>>());
    distinct!(document.fragments().chain(other.fragments()).collect::<Vec<_>>());
    fn first<'d, 'a>(document: &'d Document<'a>) -> Operation<'d, 'a> {
        document.operations().next().unwrap()
    }
    let (one, two) = (first(&document), first(&other));
    distinct!(one.variables().chain(two.variables()).collect::<Vec<_>>());
    distinct!(one.directives().chain(two.directives()).collect::<Vec<_>>());
    distinct!(one.selections().chain(two.selections()).collect::<Vec<_>>());
    distinct!(one.selections().chain(two.selections()).filter_map(|it| it.as_field()).collect::<Vec<_>>());
    distinct!(document.nodes().chain(other.nodes()).collect::<Vec<_>>());
    let ((mut values, count), (more, _)) = (of(&document), of(&other));
    assert_eq!(count, 2);
    values.extend(more);
    distinct!(values);
}

#[test]
fn values() {
    let document = parse(
        "{ a(b: [1, 2, 1.0, 2147483648000000000000, \"1\", A, B, $A, $B, null, true, false, \"A\", [], {}, [], {}]) }",
    );
    let document = document.unwrap();
    let field = document.operations().next().unwrap().selections().next().unwrap().as_field().unwrap();
    let Some(Value::List(list)) = field.argument("b").map(|it| it.value()) else { panic!() };
    distinct!(list.iter().collect::<Vec<_>>());
}

/// Complexities of which each differs from another one by a single number.
#[test]
fn complexities() {
    let of = |source: &str| parse(source).unwrap().operations().next().unwrap().complexity().unwrap();
    let sources = ["{a{b}}", "{a{b c}}", "{x:a{b c}}", "{a@d{b c}}", "{a{b} c}", "{a{b{c}}}"];
    distinct!(sources.map(of));
    let numbers = |c: Complexity| [c.fields, c.aliases, c.directives, c.root_fields, c.depth];
    for (i, source) in [(0, sources[0]), (1, sources[2]), (2, sources[3]), (3, sources[4]), (4, sources[5])] {
        let (one, other) = (numbers(of(sources[1])), numbers(of(source)));
        assert_eq!((0..5).filter(|&k| one[k] != other[k]).collect::<Vec<_>>(), [i]);
        assert_eq!(of(source), of(source));
    }
}
