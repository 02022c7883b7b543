//! What values mean.

use firthnapkin::{parse, parse_within, Document, Enum, Error, ErrorDetail, Limits, Value, Variable, MAX_DEPTH};

/// The document of an argument with this value.
fn source_of(text: &str) -> String {
    format!("query ($v: Int) {{ a(b: {text}) }}")
}

/// The value of the only argument of a field.
fn value<'d, 'a>(document: &'d Document<'a>) -> Value<'d, 'a> {
    let operation = document.operation(None).unwrap();
    let field = operation.selections().next().unwrap().as_field().unwrap();
    field.argument("b").unwrap().value()
}

#[test]
fn scalars() {
    let nines = "9".repeat(5000);
    for (text, wanted) in [
        ("null", Value::Null),
        ("true", Value::Boolean(true)),
        ("false", Value::Boolean(false)),
        ("-7", Value::Int(-7)),
        ("-0", Value::Int(0)),
        ("2147483648", Value::Int(2_147_483_648)),
        ("9223372036854775807", Value::Int(i64::MAX)),
        ("-9223372036854775808", Value::Int(i64::MIN)),
        ("9223372036854775808", Value::Number("9223372036854775808")),
        ("-9223372036854775809", Value::Number("-9223372036854775809")),
        (&nines, Value::Number(&nines)),
        ("-1.5", Value::Float(-1.5)),
        ("1e3", Value::Float(1000.0)),
        ("0.1", Value::Float(0.1)),
        ("1e-999", Value::Float(0.0)),
        ("1.7976931348623157e308", Value::Float(f64::MAX)),
        ("1e999", Value::Number("1e999")),
        ("-1e999", Value::Number("-1e999")),
        (r#""\u00e9\n𝄞""#, Value::String("é\n𝄞")),
        ("\"\"", Value::String("")),
        ("\"\"\"\n  x\n   y\n \"\"\"", Value::String("x\n y")),
        ("E", Value::Enum(Enum { name: "E" })),
        ("$v", Value::Variable(Variable { name: "v" })),
    ] {
        let source = source_of(text);
        assert_eq!(value(&parse(&source).unwrap()), wanted, "{text:.40}");
    }
    let source = source_of("-0.0");
    let document = parse(&source).unwrap();
    assert!(matches!(value(&document), Value::Float(zero) if zero.is_sign_negative()));
}

/// An enum is no string, and a variable is neither.
#[test]
fn types_of_their_own() {
    let source = source_of(r#"["a", a, $v, "v", 1e999, "1e999"]"#);
    let document = parse(&source).unwrap();
    let Value::List(list) = value(&document) else { panic!("no list") };
    let values: Vec<_> = list.iter().collect();
    for (i, one) in values.iter().enumerate() {
        for (k, other) in values.iter().enumerate() {
            assert_eq!(one == other, i == k);
        }
    }
}

#[test]
fn lists() {
    for (text, count) in [("[]", 0), ("[[]]", 1), ("[1, [2, 3], {a: 4}]", 3)] {
        let source = source_of(text);
        let document = parse(&source).unwrap();
        let Value::List(list) = value(&document) else { panic!("no list") };
        assert_eq!((list.iter().count(), list.is_empty(), format!("{list:?}")), (count, count == 0, text.to_string()));
    }
}

#[test]
fn objects() {
    let source = source_of("{a: 1, b: {c: E}, a: 3, d: 4, d: 5}");
    let document = parse(&source).unwrap();
    let Value::Object(object) = value(&document) else { panic!("no object") };
    let fields = object.fields();
    // A key that is there twice is at its first position, with its last value.
    assert_eq!(fields.iter().map(|field| field.0).collect::<Vec<_>>(), ["a", "b", "d"]);
    assert_eq!((fields[0].1, fields[2].1), (Value::Int(3), Value::Int(5)));
    assert_eq!((object.get("a"), object.get("c"), object.is_empty()), (Some(Value::Int(3)), None, false));
    assert_eq!(format!("{:?}", fields[1].1), "Object({c: E})");
    let Value::Object(inner) = fields[1].1 else { panic!("no object") };
    assert_eq!(inner.fields(), [("c", Value::Enum(Enum { name: "E" }))]);
    let source = source_of("{}");
    let document = parse(&source).unwrap();
    assert!(matches!(value(&document), Value::Object(object) if object.is_empty() && object.fields().is_empty()));
}

/// The time for the fields is in proportion to them.
#[test]
fn many_fields() {
    let fields: String = (0..200_000).map(|i| format!("k{} : {i} ", i % 150_000)).collect();
    let source = source_of(&format!("{{{fields}}}"));
    let document = parse(&source).unwrap();
    let Value::Object(object) = value(&document) else { panic!("no object") };
    let fields = object.fields();
    assert_eq!(
        (fields.len(), fields[0], fields[149_999]),
        (150_000, ("k0", Value::Int(150_000)), ("k149999", Value::Int(149_999)))
    );
}

/// The parser refuses half a surrogate pair that is written as an escape.
#[test]
fn halves_of_pairs() {
    for text in [r#""\ud800""#, r#""\udc00""#, r#""\ud800\u0041""#] {
        let source = source_of(text);
        let Err(Error::Syntax(error)) = parse(&source) else { panic!("{text}") };
        assert_eq!(error.detail, Some(ErrorDetail::UnknownEscape));
    }
}

/// Values as deep as a document may be, on a small stack.
#[test]
fn deep_values() {
    let levels = MAX_DEPTH as usize - 2;
    for (begin, end) in [("[", "]"), ("{k: ", "}")] {
        let source = source_of(&(begin.repeat(levels) + "1" + &end.repeat(levels)));
        let document = parse_within(&source, Limits { depth: MAX_DEPTH, ..Limits::default() }).unwrap();
        let read = || {
            let (mut inner, mut found) = (value(&document), 0);
            while inner != Value::Int(1) {
                inner = match inner {
                    Value::List(list) => list.iter().next().unwrap(),
                    Value::Object(object) => object.fields()[0].1,
                    other => panic!("{other:?}"),
                };
                found += 1;
            }
            assert_eq!((found, format!("{:?}", value(&document)).matches(begin).count()), (levels, levels));
        };
        std::thread::scope(|scope| {
            let thread = std::thread::Builder::new().stack_size(1 << 16).spawn_scoped(scope, read).unwrap();
            thread.join().unwrap();
        });
    }
}
