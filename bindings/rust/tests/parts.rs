//! The parts of a document by their names.

use firthnapkin::{parse, Argument, Document, Error, Field, Limits, OperationKind, Selection, SyntaxError, Value};

const PETS: &str = "query Pets($first: Int! = 10 @show(as: \"limit\"), $tags: [ String ! ]) @live @cached(for: 5) {
  cats: pets(first: $first, tags: $tags) @include(if: true) { name ...Owner @defer }
  ... on Cat @skip(if: false) { lives }
  ... { id }
}
mutation { feed }
subscription Births { birth }
fragment Owner on Person @private { email }";

/// The texts of parts.
macro_rules! texts {
    ($parts:expr) => {
        $parts.map(|part| part.text()).collect::<Vec<_>>()
    };
}

fn selections_of<'d, 'a>(document: &'d Document<'a>) -> Vec<Selection<'d, 'a>> {
    document.operations().next().unwrap().selections().collect()
}

fn first_field<'d, 'a>(document: &'d Document<'a>) -> Field<'d, 'a> {
    selections_of(document)[0].as_field().unwrap()
}

#[test]
fn operations() {
    let document = parse(PETS).unwrap();
    let found: Vec<_> = document.operations().map(|it| (it.kind(), it.name())).collect();
    use OperationKind::*;
    assert_eq!(found, [(Query, Some("Pets")), (Mutation, None), (Subscription, Some("Births"))]);
    let pets = document.operations().next().unwrap();
    assert_eq!(texts!(pets.variables()), ["$first: Int! = 10 @show(as: \"limit\")", "$tags: [ String ! ]"]);
    assert_eq!(texts!(pets.directives()), ["@live", "@cached(for: 5)"]);
    assert_eq!(pets.selections().count(), 3);
    assert_eq!(pets.text(), &PETS[..PETS.find("\nmutation").unwrap()]);
    assert_eq!(pets.node(), document.node(0).unwrap());
    let feed = document.operations().nth(1).unwrap();
    assert_eq!((feed.variables().count(), feed.directives().count(), feed.selections().count()), (0, 0, 1));
}

#[test]
fn an_operation_by_its_name() {
    let document = parse("query A { a } query B { b } query A { c }").unwrap();
    assert_eq!(document.operation(Some("A")).unwrap().text(), "query A { a }");
    assert_eq!(document.operation(Some("B")).unwrap().text(), "query B { b }");
    for name in [None, Some(""), Some("C"), Some("a")] {
        assert_eq!(document.operation(name), None);
    }
    for source in ["query A { a }", "{ a }", "{ a } fragment F on T { b }"] {
        assert_eq!(parse(source).unwrap().operation(None).unwrap().node().index(), 0);
    }
    assert_eq!(parse("fragment F on T { b }").unwrap().operation(None), None);
    assert_eq!(parse("{ a }").unwrap().operation(Some("")), None);
}

#[test]
fn fragments() {
    let document = parse(PETS).unwrap();
    let owner = document.fragment("Owner").unwrap();
    assert_eq!((owner.name(), owner.type_condition()), ("Owner", "Person"));
    assert_eq!(texts!(owner.directives()), ["@private"]);
    assert_eq!(
        owner.selections().filter_map(|it| it.as_field()).map(|field| field.name()).collect::<Vec<_>>(),
        ["email"]
    );
    assert_eq!(texts!(document.fragments()), [owner.text()]);
    assert_eq!(document.fragment("Pets"), None);
    // The first of two of a name, and both among all.
    let doubled = parse("fragment F on A { a } fragment F on B { b }").unwrap();
    assert_eq!((doubled.fragment("F").unwrap().type_condition(), doubled.fragments().count()), ("A", 2));
}

#[test]
fn selections() {
    let document = parse(PETS).unwrap();
    let found = selections_of(&document);
    let [Selection::Field(cats), Selection::InlineFragment(on_cat), Selection::InlineFragment(bare)] = found[..] else {
        panic!("{found:?}")
    };
    assert_eq!((cats.alias(), cats.name(), cats.response_key()), (Some("cats"), "pets", "cats"));
    assert_eq!(texts!(cats.arguments()), ["first: $first", "tags: $tags"]);
    assert_eq!(texts!(cats.directives()), ["@include(if: true)"]);
    let inner: Vec<_> = cats.selections().collect();
    let [Selection::Field(name), Selection::FragmentSpread(spread)] = inner[..] else { panic!("{inner:?}") };
    assert_eq!((name.alias(), name.name(), name.response_key()), (None, "name", "name"));
    assert_eq!((name.arguments().count(), name.directives().count(), name.selections().count()), (0, 0, 0));
    assert_eq!((spread.name(), texts!(spread.directives())), ("Owner", vec!["@defer"]));
    assert_eq!((on_cat.type_condition(), texts!(on_cat.directives())), (Some("Cat"), vec!["@skip(if: false)"]));
    assert_eq!((bare.type_condition(), bare.selections().count(), on_cat.selections().count()), (None, 1, 1));
    assert_eq!((texts!(found[1].directives()), found[1].as_field()), (vec!["@skip(if: false)"], None));
    assert_eq!(found[1].node(), on_cat.node());
}

#[test]
fn variable_definitions() {
    let source = "query ($a: [T ! ] ! = [1, null] @d(x: 1), $b: Int, $c: Int = null @e, $d: Int @f(y: 2)) { a }";
    let document = parse(source).unwrap();
    let variables: Vec<_> = document.operation(None).unwrap().variables().collect();
    let found: Vec<_> = variables.iter().map(|it| (it.name(), it.variable_type(), texts!(it.directives()))).collect();
    let wanted = [
        ("a", "[T!]!", vec!["@d(x: 1)"]),
        ("b", "Int", vec![]),
        ("c", "Int", vec!["@e"]),
        ("d", "Int", vec!["@f(y: 2)"]),
    ];
    assert_eq!(found, wanted);
    let Some(Value::List(list)) = variables[0].default_value() else { panic!("no list") };
    assert_eq!(list.iter().collect::<Vec<_>>(), [Value::Int(1), Value::Null]);
    assert_eq!(variables[1..].iter().map(|it| it.default_value()).collect::<Vec<_>>(), [None, Some(Value::Null), None]);
    let texts = ["$a: [T ! ] ! = [1, null] @d(x: 1)", "$b: Int", "$c: Int = null @e", "$d: Int @f(y: 2)"];
    assert_eq!(texts!(variables.iter()), texts);
}

#[test]
fn arguments_and_directives() {
    let document = parse("{ f(a: 1, b: {c: [2]} , a: 3) @g(h: \"i\", h: E) }").unwrap();
    let field = first_field(&document);
    // The first of two of a name.
    let a = field.argument("a").unwrap();
    assert_eq!((a.name(), a.value(), a.text()), ("a", Value::Int(1), "a: 1"));
    assert_eq!(texts!(field.arguments()), ["a: 1", "b: {c: [2]}", "a: 3"]);
    let directive = field.directives().next().unwrap();
    assert_eq!((directive.name(), directive.argument("h").map(|it| it.value())), ("g", Some(Value::String("i"))));
    assert_eq!(texts!(directive.arguments()), ["h: \"i\"", "h: E"]);
    assert_eq!((field.argument("c"), directive.argument("i")), (None, None));
}

#[test]
fn lines_and_columns_from_1() {
    let source = "# é𝄞\nquery Q($v: Int) {\n  a(b: \"é𝄞\", c: 1) @d\n}";
    let document = parse(source).unwrap();
    let operation = document.operation(None).unwrap();
    let field = first_field(&document);
    let arguments: Vec<Argument> = field.arguments().collect();
    let variable = operation.variables().next().unwrap();
    let directive = field.directives().next().unwrap();
    assert_eq!((operation.line(), operation.column()), (2, 1));
    assert_eq!((variable.line(), variable.column()), (2, 9));
    assert_eq!((field.line(), field.column(), field.node().line(), field.node().column()), (3, 3, 3, 3));
    assert_eq!((arguments[0].line(), arguments[0].column()), (3, 5));
    assert_eq!((arguments[1].line(), arguments[1].column()), (3, 14));
    assert_eq!((directive.line(), directive.column()), (3, 20));
    let wanted = "2 | query Q($v: Int) {\n3 |   a(b: \"é𝄞\", c: 1) @d\n  |              ^\n4 | }";
    assert_eq!(
        (arguments[1].excerpt().as_deref(), arguments[1].node().excerpt().as_deref()),
        (Some(wanted), Some(wanted))
    );
}

fn error_of(source: &str, limits: Limits) -> SyntaxError {
    match firthnapkin::parse_within(source, limits) {
        Err(Error::Syntax(error)) => error,
        other => panic!("{source:.40}: {other:?}"),
    }
}

#[test]
fn excerpts_of_errors() {
    let long = format!("{{{})", "a ".repeat(5000));
    let shown = format!("1 | {})\n  | {}^", "a ".repeat(20), " ".repeat(40));
    for (source, wanted) in [
        ("{\n  a )\n}", "1 | {\n2 |   a )\n  |     ^\n3 | }"),
        ("{ a ? }", "1 | { a ? }\n  |     ^"),
        ("\n\n\n\n\n\n\n\n{\r\n)", " 9 | {\n10 | )\n   | ^"),
        (&long, &shown),
    ] {
        assert_eq!(error_of(source, Limits::default()).excerpt(source).as_deref(), Some(wanted));
    }
    let error = error_of("{ a }", Limits { tokens: 1, ..Limits::default() });
    assert_eq!(error.excerpt("{ a }").as_deref(), Some("1 | { a }\n  |   ^"));
    // Of other sources: with such a byte, and without.
    assert_eq!(error.excerpt("é\nb").as_deref(), Some("1 | é\n  |  ^\n2 | b"));
    assert_eq!((error.excerpt("a"), error.excerpt("aé")), (None, None));
}

#[test]
fn many_parts() {
    let source = format!("{{{}}}", "a(b: 1) ".repeat(100_000));
    let document = parse(&source).unwrap();
    let found = selections_of(&document);
    let argument = found[99_999].as_field().unwrap().argument("b").unwrap();
    assert_eq!((found.len(), argument.value(), argument.column()), (100_000, Value::Int(1), 1 + 8 * 99_999 + 3));
}
