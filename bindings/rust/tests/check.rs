//! Checks of sources, which build no document.

use firthnapkin::{check, parse_within, Error, ErrorKind, Limits, SyntaxError, MAX_DEPTH};

/// Numbers that all differ: 7 fields, 5 aliases, 4 directives, 3 fields at the root, nested 2 deep; of B 4, 3, 1, 4 and 1.
const TWO: &str = "query A @d { x: a { y: b c } ...F z: e { ...G @d } }\nfragment F on T @d { g: a { h } }\n\
    query B { i: a ...H }\nfragment G on T { j: a @d }\nfragment H on T @d { k: a l: c m }";
const LARGEST: [u32; 5] = [7, 5, 4, 4, 2];
const COUNTED: [&str; 5] = ["fields", "aliases", "directives", "root fields", "levels of fields"];

/// Limits of these numbers, with the default ones on other things.
fn sizes([fields, aliases, directives, root_fields, field_depth]: [u32; 5]) -> Limits {
    Limits { fields, aliases, directives, root_fields, field_depth, ..Limits::default() }
}

/// A limit on one number alone.
fn only(i: usize, limit: u32) -> Limits {
    let mut numbers = [u32::MAX; 5];
    numbers[i] = limit;
    sizes(numbers)
}

fn within(depth: u32, tokens: u32) -> Limits {
    Limits { depth, tokens, ..Limits::default() }
}

fn error_of<T: std::fmt::Debug>(result: Result<T, Error>) -> SyntaxError {
    match result {
        Err(Error::Syntax(error)) => error,
        other => panic!("{other:?}"),
    }
}

#[test]
fn documents() {
    let deep = "{a".repeat(1000) + &"}".repeat(1000);
    for (source, limits) in [
        ("{a}", Limits::default()),
        ("{a}", Limits { depth: 1, tokens: 3, ..sizes([1, 0, 0, 1, 1]) }),
        ("# é\n{ a(b: \"𝄞\") { ...F } }", within(2, u32::MAX)),
        ("fragment F on T { ...F }", only(0, 0)),
        ("{ ...F }", Limits::default()),
        (TWO, Limits { tokens: 75, ..sizes(LARGEST) }),
        (&"{a}".repeat(100), only(0, 1)),
        (&deep, within(MAX_DEPTH, u32::MAX)),
    ] {
        assert_eq!(check(source, limits), Ok(()), "{source:.40}");
    }
    assert_eq!(error_of(check(TWO, Limits { tokens: 75 - 1, ..sizes(LARGEST) })).kind, ErrorKind::TooManyTokens);
}

/// Each error, with its words and where it begins. It is that of a parse.
#[test]
fn others() {
    let (deep, last) = ("{a".repeat(201), "{a}".repeat(99) + "{a b}");
    let schema = "Unexpected \"type\": this is a schema's definition, not a request's";
    let fields = "Too many fields in operation \"B\": 2, with a limit of 1";
    let roots = "Too many root fields in an operation without a name: 2, with a limit of 1";
    for (source, limits, kind, message, line, column) in [
        ("{\n  a )\n}", Limits::default(), ErrorKind::UnexpectedToken, "Unexpected \")\"", 2, 5),
        ("", Limits::default(), ErrorKind::UnexpectedEnd, "Unexpected end of input", 1, 1),
        ("{ é", Limits::default(), ErrorKind::Lexical, "Unknown character \"é\"", 1, 3),
        (&deep, Limits::default(), ErrorKind::TooDeep, "Too deeply nested", 1, 401),
        ("{ a { b } }", within(1, u32::MAX), ErrorKind::TooDeep, "Too deeply nested", 1, 5),
        ("{ a b }", within(200, 3), ErrorKind::TooManyTokens, "Too many tokens", 1, 7),
        ("{ ...F }", only(0, 9), ErrorKind::UnknownFragment, "Unknown fragment", 1, 3),
        (
            "{ ...F } fragment F on T { ...F }",
            only(4, 9),
            ErrorKind::FragmentCycle,
            "Fragment spread within itself",
            1,
            28,
        ),
        ("type A { b: C }", Limits::default(), ErrorKind::UnexpectedToken, schema, 1, 1),
        ("{a}\nquery B { a b }", only(0, 1), ErrorKind::OperationTooLarge, fields, 2, 1),
        (&last, only(3, 1), ErrorKind::OperationTooLarge, roots, 1, 298),
    ] {
        let error = error_of(check(source, limits));
        assert_eq!((error.kind, error.message.as_str()), (kind, message));
        assert_eq!((error.line(), error.column()), (line, column));
        assert_eq!(error, error_of(parse_within(source, limits)));
    }
    for sizes in [u32::MAX, 0] {
        let limits = Limits { depth: MAX_DEPTH + 1, fields: sizes, ..Limits::default() };
        assert_eq!(check("{ ?", limits), Err(Error::InvalidLimit));
    }
}

/// Each number is allowed, and one less is not.
#[test]
fn each_limit() {
    for i in 0..5 {
        assert_eq!(check(TWO, only(i, LARGEST[i])), Ok(()));
        let error = error_of(check(TWO, only(i, LARGEST[i] - 1)));
        let (name, limit) = (if i == 3 { "B" } else { "A" }, LARGEST[i] - 1);
        let words = format!("Too many {} in operation \"{name}\": {}, with a limit of {limit}", COUNTED[i], LARGEST[i]);
        assert_eq!((error.kind, error.message), (ErrorKind::OperationTooLarge, words));
    }
}

#[test]
fn threads_and_small_stacks() {
    let check_all = || {
        for _ in 0..100 {
            assert_eq!(check(TWO, Limits::default()), Ok(()));
            assert_eq!(error_of(check(TWO, only(0, 6))).kind, ErrorKind::OperationTooLarge);
            assert_eq!(error_of(check(&"{...".repeat(5000), within(999, u32::MAX))).kind, ErrorKind::TooDeep);
        }
    };
    let threads: Vec<_> =
        (0..4).map(|_| std::thread::Builder::new().stack_size(1 << 16).spawn(check_all).unwrap()).collect();
    threads.into_iter().for_each(|thread| thread.join().unwrap());
}
