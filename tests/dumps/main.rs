//! Writes what Rust's package exposes of each text of a corpus, as tests/c/dump.c does of the library.
//!
//!     dump CORPUS

use firthnapkin::{
    Argument, Directive, Document, Error, ErrorDetail, Field, Fragment, FragmentSpread, InlineFragment, Kind, Limits,
    Node, NodeValue, Operation, Position, Selection, SyntaxError, Value, VariableDefinition,
};
use std::fmt::{Debug, Write as _};
use std::io::Write as _;
use std::sync::atomic::{AtomicBool, Ordering::Relaxed};

/// A text as JSON.
fn quoted(text: &str) -> String {
    let mut json = String::from("\"");
    for character in text.chars() {
        match character {
            '"' => json.push_str("\\\""),
            '\\' => json.push_str("\\\\"),
            '\u{8}' => json.push_str("\\b"),
            '\u{c}' => json.push_str("\\f"),
            '\n' => json.push_str("\\n"),
            '\r' => json.push_str("\\r"),
            '\t' => json.push_str("\\t"),
            '\0'..='\u{1f}' => write!(json, "\\u{:04x}", character as u32).unwrap(),
            _ => json.push(character),
        }
    }
    json + "\""
}

fn or_null(text: Option<&str>) -> String {
    text.map_or("null".into(), quoted)
}

fn array(items: impl IntoIterator<Item = String>) -> String {
    format!("[{}]", items.into_iter().collect::<Vec<_>>().join(","))
}

/// The name of a kind as the library has it: `fragment_spread` of `FragmentSpread`.
fn named(kind: impl Debug) -> String {
    let mut name = String::new();
    for character in format!("{kind:?}").split('(').next().unwrap().chars() {
        if character.is_uppercase() && !name.is_empty() {
            name.push('_');
        }
        name.extend(character.to_lowercase());
    }
    quoted(&name)
}

fn position(p: Position) -> String {
    format!("[{},{},{},{}]", p.index, p.line, p.column, p.byte)
}

fn syntax_error(error: Error) -> SyntaxError {
    match error {
        Error::Syntax(error) => error,
        other => panic!("{other}"),
    }
}

fn error_of(error: Error, source: &str) -> String {
    let e = syntax_error(error);
    let character = match e.detail {
        Some(
            ErrorDetail::UnknownCharacter(it)
            | ErrorDetail::UnexpectedCharacter(it)
            | ErrorDetail::UnknownCharacterInString(it),
        ) => it as u32,
        _ => 0,
    };
    format!(
        r#"{{"kind":{},"detail":{},"character":{character},"message":{},"start":{},"end":{},"line":{},"column":{},"excerpt":{}}}"#,
        named(e.kind),
        e.detail.map_or("null".into(), named),
        quoted(&e.message),
        position(e.start),
        position(e.end),
        e.line(),
        e.column(),
        or_null(e.excerpt(source).as_deref()),
    )
}

fn tokens_of(source: &str) -> String {
    match firthnapkin::tokens(source) {
        Err(error) => error_of(error, source),
        Ok(tokens) => array(last_of(tokens.iter()).map(|t| {
            let [line, column] = [t.line(), t.column()].map(|number| number.to_string());
            let [text, unquoted] = [t.text(), t.unquoted()].map(quoted);
            array([named(t.kind()), position(t.start()), position(t.end()), line, column, text, unquoted])
        })),
    }
}

fn node_of(node: Node) -> String {
    let meaning = match node.value() {
        NodeValue::Int(number) => number.to_string(),
        NodeValue::Boolean(truth) => truth.to_string(),
        NodeValue::Text(text) if !matches!(node.kind(), Kind::Enum | Kind::Variable) => quoted(text),
        _ => "null".into(),
    };
    array([
        named(node.kind()),
        node.descendants().to_string(),
        position(node.start()),
        position(node.end()),
        quoted(node.text()),
        or_null(node.name()),
        meaning,
        array(node.children().map(|it| it.index().to_string())),
    ])
}

fn value_of(value: Value) -> String {
    match value {
        Value::Null => "null".into(),
        Value::Boolean(truth) => truth.to_string(),
        Value::Int(number) => format!(r#"{{"int":"{number}"}}"#),
        Value::Number(text) => format!(r#"{{"int":"{text}"}}"#),
        Value::Float(number) => format!(r#"{{"float":"{:016x}"}}"#, number.to_bits()),
        Value::String(text) => quoted(text),
        Value::Enum(it) => format!(r#"{{"enum":{}}}"#, quoted(it.name)),
        Value::Variable(it) => format!(r#"{{"variable":{}}}"#, quoted(it.name)),
        Value::List(list) => array(list.iter().map(value_of)),
        Value::Object(object) => {
            let mut fields = object.fields();
            fields.sort_by_key(|field| field.0);
            let written = fields.into_iter().map(|(key, value)| array([quoted(key), value_of(value)]));
            format!(r#"{{"object":{}}}"#, array(written))
        }
        other => panic!("{other:?}"),
    }
}

/// Of a source of more bytes parts have no excerpts, and the last tokens and nodes are written.
const LONG: usize = 10_000;
const LAST: usize = 100;
static IS_LONG: AtomicBool = AtomicBool::new(false);

fn last_of<I: ExactSizeIterator>(items: I) -> impl Iterator<Item = I::Item> {
    let first = if IS_LONG.load(Relaxed) { items.len().saturating_sub(LAST) } else { 0 };
    items.skip(first)
}

fn excerpt_of(make: impl Fn() -> Option<String>) -> Option<String> {
    if IS_LONG.load(Relaxed) {
        None
    } else {
        make()
    }
}

/// A part: what all have, and more keys with their values.
fn part(node: Node, text: &str, line: u32, column: u32, excerpt: Option<String>, more: &[(&str, String)]) -> String {
    let mut json =
        format!(r#"{{"node":{},"line":{line},"column":{column},"text":{},"excerpt":"#, node.index(), quoted(text));
    json.push_str(&or_null(excerpt.as_deref()));
    for (key, value) in more {
        write!(json, ",{}:{value}", quoted(key)).unwrap();
    }
    json + "}"
}

/// `part` of one of the package's types, which share no trait.
macro_rules! part {
    ($it:expr, $($key:literal: $value:expr),*) => {
        part($it.node(), $it.text(), $it.line(), $it.column(), excerpt_of(|| $it.excerpt()), &[$(($key, $value)),*])
    };
}

fn arguments<'d, 'a: 'd>(arguments: impl Iterator<Item = Argument<'d, 'a>>) -> String {
    array(arguments.map(|it| part!(it, "name": quoted(it.name()), "value": value_of(it.value()))))
}

fn directives<'d, 'a: 'd>(directives: impl Iterator<Item = Directive<'d, 'a>>) -> String {
    array(directives.map(|it| part!(it, "name": quoted(it.name()), "arguments": arguments(it.arguments()))))
}

fn selections<'d, 'a: 'd>(selections: impl Iterator<Item = Selection<'d, 'a>>) -> String {
    array(selections.map(|it| match it {
        Selection::Field(it) => field(it),
        Selection::FragmentSpread(it) => spread(it),
        Selection::InlineFragment(it) => inline_fragment(it),
    }))
}

fn field(it: Field) -> String {
    part!(it, "name": quoted(it.name()), "kind": quoted("field"), "alias": or_null(it.alias()),
        "key": quoted(it.response_key()), "arguments": arguments(it.arguments()),
        "directives": directives(it.directives()), "selections": selections(it.selections()))
}

fn spread(it: FragmentSpread) -> String {
    part!(it, "name": quoted(it.name()), "kind": quoted("fragment_spread"), "directives": directives(it.directives()))
}

fn inline_fragment(it: InlineFragment) -> String {
    part!(it, "name": or_null(it.type_condition()), "kind": quoted("inline_fragment"),
        "directives": directives(it.directives()), "selections": selections(it.selections()))
}

fn variable(it: VariableDefinition) -> String {
    part!(it, "name": quoted(it.name()), "type": quoted(it.variable_type()),
        "default": array(it.default_value().map(value_of)), "directives": directives(it.directives()))
}

fn complexity(it: &Operation, source: &str) -> String {
    match it.complexity() {
        Ok(c) => array([c.fields, c.aliases, c.directives, c.root_fields, c.depth].map(|number| number.to_string())),
        Err(error) => error_of(error, source),
    }
}

fn operation(it: Operation, source: &str) -> String {
    part!(it, "name": or_null(it.name()), "kind": named(it.kind()), "complexity": complexity(&it, source),
        "variables": array(it.variables().map(variable)), "directives": directives(it.directives()),
        "selections": selections(it.selections()))
}

fn fragment(it: Fragment) -> String {
    part!(it, "name": quoted(it.name()), "type": quoted(it.type_condition()), "directives": directives(it.directives()),
        "selections": selections(it.selections()))
}

fn document_of(document: &Document) -> String {
    format!(
        r#"{{"nodes":{},"definitions":{},"operations":{},"fragments":{}}}"#,
        array(last_of(document.nodes()).map(node_of)),
        array(document.definitions().map(|it| it.index().to_string())),
        array(document.operations().map(|it| operation(it, document.source()))),
        array(document.fragments().map(fragment)),
    )
}

/// `part` of a value or a type that is all of a source.
fn whole(node: Node, document: &Document, meaning: (&str, String)) -> String {
    let nodes = array(last_of(document.nodes()).map(node_of));
    part(node, node.text(), node.line(), node.column(), excerpt_of(|| node.excerpt()), &[("nodes", nodes), meaning])
}

fn value_alone(source: &str) -> String {
    match firthnapkin::parse_value(source, Limits::default()) {
        Err(error) => error_of(error, source),
        Ok(found) => whole(found.node(), found.document(), ("value", value_of(found.value()))),
    }
}

fn type_alone(source: &str) -> String {
    match firthnapkin::parse_type(source, Limits::default()) {
        Err(error) => error_of(error, source),
        Ok(found) => whole(found.node(), found.document(), ("type", quoted(found.as_str()))),
    }
}

fn line_of(source: &str) -> String {
    IS_LONG.store(source.len() > LONG, Relaxed);
    let few = Limits { depth: 3, tokens: 20, ..Limits::default() };
    let within = firthnapkin::parse_within(source, few).err().map_or("null".into(), |error| error_of(error, source));
    let (error, document) = match firthnapkin::parse(source) {
        Ok(document) => ("null".into(), document_of(&document)),
        Err(error) => (error_of(error, source), "null".into()),
    };
    let canonical = match firthnapkin::canonical(source) {
        Ok(text) => quoted(&text),
        Err(error) => error_of(error, source),
    };
    let tokens = tokens_of(source);
    let constant = firthnapkin::parse_const_value(source, few).err().map_or("null".into(), |it| error_of(it, source));
    let [value, kind] = [value_alone(source), type_alone(source)];
    format!(
        r#"{{"tokens":{tokens},"canonical":{canonical},"error":{error},"within":{within},"value":{value},"constant":{constant},"type":{kind},"document":{document}}}"#
    )
}

fn main() {
    let corpus = std::fs::read_to_string(std::env::args().nth(1).unwrap()).unwrap();
    let mut out = std::io::BufWriter::new(std::io::stdout());
    let mut rest = corpus.as_str();
    while let Some((length, after)) = rest.split_once('\n') {
        let (source, after) = after.split_at(length.parse().unwrap());
        writeln!(out, "{}", line_of(source)).unwrap();
        rest = &after[1..];
    }
}
