//! How large operations are, and the limits on that.

use firthnapkin::{parse, parse_within, Complexity, Document, Error, ErrorKind, Limits, SyntaxError, MAX_DEPTH};

const TWO: &str = "query A @d { x: a { y: b c } ...F z: e { ...G @d } }\nfragment F on T @d { g: a { h } }\n\
    query B { i: a ...H }\nfragment G on T { j: a @d }\nfragment H on T @d { k: a l: c m }";
const NUMBERS: [[u32; 5]; 2] = [[7, 5, 4, 3, 2], [4, 3, 1, 4, 1]];
const COUNTED: [&str; 5] = ["fields", "aliases", "directives", "root fields", "levels of fields"];

/// Limits of these numbers, with the default ones on other things.
fn sizes(sizes: [u32; 5]) -> Limits {
    let [fields, aliases, directives, root_fields, field_depth] = sizes;
    Limits { fields, aliases, directives, root_fields, field_depth, ..Limits::default() }
}

/// A limit on one number alone.
fn only(i: usize, limit: u32) -> Limits {
    let mut numbers = [u32::MAX; 5];
    numbers[i] = limit;
    sizes(numbers)
}

fn numbers(complexity: Complexity) -> [u32; 5] {
    let Complexity { fields, aliases, directives, root_fields, depth, .. } = complexity;
    [fields, aliases, directives, root_fields, depth]
}

fn numbers_of(document: &Document) -> Vec<[u32; 5]> {
    document.operations().map(|operation| numbers(operation.complexity().unwrap())).collect()
}

fn error_of<T: std::fmt::Debug>(result: Result<T, Error>) -> SyntaxError {
    match result {
        Err(Error::Syntax(error)) => error,
        other => panic!("{other:?}"),
    }
}

/// So many fragments, each a field and twice the next one.
fn doubled(count: usize) -> String {
    let parts = (1..count).map(|i| format!(" fragment F{i} on T {{ a ...F{0} ...F{0} }}", i + 1)).collect::<String>();
    format!("query Large {{ ...F1 }}{parts} fragment F{count} on T {{ a }}")
}

/// The numbers are the same whether they are found by the parse or later.
#[test]
fn numbers_of_operations() {
    let deep = "{a".repeat(200) + &"}".repeat(200);
    let many = "{a}".repeat(99) + "{a b}";
    let mut of_many = vec![[1, 0, 0, 1, 1]; 99];
    of_many.push([2, 0, 0, 2, 1]);
    for (source, wanted) in [
        ("{a}", vec![[1, 0, 0, 1, 1]]),
        ("{ a a @skip(if: true) x: b { c } }", vec![[4, 1, 1, 3, 2]]),
        (
            "query ($v: [Int! ] = [1] @n) @a @b { c: a @d { b ...F @e ... @g { h } } } fragment F on T @f { i: j { k } }",
            vec![[5, 2, 7, 1, 3]],
        ),
        ("{ ...F ...F @a } fragment F on T @b { c @d }", vec![[2, 0, 5, 2, 1]]),
        (
            "query A { ...F } fragment F on T { a(b: \"é\") } mutation B { b { ...F } }",
            vec![[1, 0, 0, 1, 1], [2, 0, 0, 1, 2]],
        ),
        ("fragment F on T { a }", vec![]),
        ("{ ...A } fragment A on T { a } fragment A on T { b c }", vec![[1, 0, 0, 1, 1]]),
        ("fragment A on T { ...A ...B } { a }", vec![[1, 0, 0, 1, 1]]),
        (&deep, vec![[200, 0, 0, 1, 200]]),
        (&many, of_many),
        (TWO, NUMBERS.to_vec()),
    ] {
        for limits in [Limits::default(), only(0, 1000), only(4, 1000)] {
            let document = parse_within(source, limits).unwrap();
            assert_eq!(numbers_of(&document), wanted, "{source:.40}");
            assert_eq!(numbers_of(&document.clone()), wanted);
            assert_eq!(numbers_of(&document), wanted);
        }
    }
}

#[test]
fn large_numbers_and_deep_documents() {
    for (count, fields) in [(1, 1), (31, (1 << 31) - 1), (32, u32::MAX), (33, u32::MAX), (65, u32::MAX)] {
        assert_eq!(numbers_of(&parse(&doubled(count)).unwrap()), [[fields, 0, 0, fields, 1]]);
    }
    let source = "{a".repeat(1000) + &"}".repeat(1000);
    let limits = Limits { depth: MAX_DEPTH, ..Limits::default() };
    assert_eq!(numbers_of(&parse_within(&source, limits).unwrap()), [[1000, 0, 0, 1, 1000]]);
    assert_eq!(numbers_of(&parse_within(&source, Limits { fields: 1000, ..limits }).unwrap()), [[1000, 0, 0, 1, 1000]]);
}

/// The number itself is allowed. With a lower limit the first operation beyond it is refused, where it begins.
#[test]
fn each_limit() {
    let document = parse(TWO).unwrap();
    for i in 0..5 {
        for limit in 0..9 {
            let result = parse_within(TWO, only(i, limit));
            let Some(which) = (0..2).find(|&which| NUMBERS[which][i] > limit) else {
                assert_eq!(numbers_of(&result.unwrap()), NUMBERS);
                continue;
            };
            let operation = document.operations().nth(which).unwrap();
            let (error, number, name) = (error_of(result), NUMBERS[which][i], ["A", "B"][which]);
            let words = format!("Too many {} in operation \"{name}\": {number}, with a limit of {limit}", COUNTED[i]);
            assert_eq!((error.kind, &error.message), (ErrorKind::OperationTooLarge, &words));
            assert_eq!((error.start, error.end), (operation.node().start(), operation.node().end()));
            assert_eq!(error.to_string(), format!("{words}. At {}:{}", operation.line(), operation.column()));
            assert_eq!((error.excerpt(TWO), error.detail), (operation.excerpt(), None));
        }
    }
}

/// The first operation comes before the second one, and its first number before the others.
#[test]
fn several_limits() {
    let exact = [7, 5, 4, 4, 2];
    assert_eq!(numbers_of(&parse_within(TWO, sizes(exact)).unwrap()), NUMBERS);
    for (lower, what, name) in [(0..1, 0, "A"), (1..3, 1, "A"), (2..5, 2, "A"), (3..4, 3, "B"), (3..5, 4, "A")] {
        let mut limits = exact;
        limits[lower].iter_mut().for_each(|limit| *limit -= 1);
        let message = error_of(parse_within(TWO, sizes(limits))).message;
        assert!(message.starts_with(&format!("Too many {} in operation \"{name}\": ", COUNTED[what])), "{message}");
    }
}

#[test]
fn words() {
    let words = |source: &str, limits| error_of(parse_within(source, limits)).message;
    let unnamed = "Too many fields in an operation without a name: 2, with a limit of 1";
    assert_eq!(words("{ a b }", only(0, 1)), unnamed);
    let name = "n".repeat(5000);
    let named = format!("Too many root fields in operation \"{name}\": 1, with a limit of 0");
    assert_eq!(words(&format!("query {name} {{ a }}"), only(3, 0)), named);
    for limit in [0, u32::MAX - 1] {
        let large = format!("Too many fields in operation \"Large\": 4294967295 or more, with a limit of {limit}");
        assert_eq!(words(&doubled(61), only(0, limit)), large);
    }
    let source = "# é𝄞\n{ a(b: \"é\") } query B { a b }";
    let error = error_of(parse_within(source, only(0, 1)));
    assert_eq!(&source[error.start.byte as usize..error.end.byte as usize], "query B { a b }");
}

/// A spread that can't be expanded is refused with a limit, and otherwise when a number is asked for, each time.
#[test]
fn spreads() {
    for (source, kind, start, end) in [
        ("{ ...A }", ErrorKind::UnknownFragment, 2, 6),
        ("{ ...A } fragment A on T { ...A }", ErrorKind::FragmentCycle, 27, 31),
        (
            "{ ...A }\nfragment A on T { a(x: \"é\") { ...B @c } }\nfragment B on T { ...A }",
            ErrorKind::FragmentCycle,
            69,
            73,
        ),
        ("{ ...A ...X } fragment A on T { ...Y ...A }", ErrorKind::UnknownFragment, 32, 36),
        ("{ a b c } query B { ...X }", ErrorKind::UnknownFragment, 20, 24),
    ] {
        let document = parse(source).unwrap();
        let mut errors: Vec<_> =
            document.operations().chain(document.operations()).map(|it| error_of(it.complexity())).collect();
        for i in 0..5 {
            errors.extend([0, u32::MAX - 1].map(|limit| error_of(parse_within(source, only(i, limit)))));
        }
        let words = match kind {
            ErrorKind::UnknownFragment => "Unknown fragment",
            _ => "Fragment spread within itself",
        };
        for error in errors {
            assert_eq!((error.kind, error.message.as_str()), (kind, words));
            assert_eq!((error.start.index, error.end.index), (start, end));
        }
    }
    let document = parse_within("{ a } fragment A on T { ...A ...X }", only(0, 1)).unwrap();
    assert_eq!(numbers_of(&document), [[1, 0, 0, 1, 1]]);
}

/// What is no document, or can't be expanded, comes first.
#[test]
fn order() {
    let limits = Limits { depth: 1, tokens: 6, ..only(0, 1) };
    for (source, kind) in [
        ("{ a b } {", ErrorKind::UnexpectedEnd),
        ("{ a b ?", ErrorKind::Lexical),
        ("{ a { b } }", ErrorKind::TooDeep),
        ("{ a b c d e }", ErrorKind::TooManyTokens),
        ("{ ...X }", ErrorKind::UnknownFragment),
        ("{ a b }", ErrorKind::OperationTooLarge),
    ] {
        assert_eq!(error_of(parse_within(source, limits)).kind, kind, "{source}");
    }
}

/// A document may be used by several threads at once.
#[test]
fn threads() {
    let source = TWO.repeat(20);
    let document = parse(&source).unwrap();
    std::thread::scope(|scope| {
        for _ in 0..4 {
            scope.spawn(|| assert_eq!(numbers_of(&document), NUMBERS.repeat(20)));
        }
    });
}
