//! Measures each public method of each part that Rust's package returns for a corpus's texts, as tests/corpus.py writes one.
//!
//!     asked CORPUS
//!
//! For each text it writes a line: an object with a list for each type and name, of the time that it takes to ask it of each part of
//! the type, in nanoseconds, of the size of what they return, and of the number of parts. Rust has no list of a type's methods:
//! scripts/shapes looks in the sources for one that isn't asked here.

use firthnapkin::{
    Argument, Directive, Document, Error, Field, Fragment, FragmentSpread, InlineFragment, Kind, Limits, List, Node,
    Object, Operation, ParsedType, ParsedValue, Selection, Token, Tokens, Value, VariableDefinition, MAX_DEPTH,
};
use std::ffi::{c_int, c_long};
use std::fmt::{Debug, Write as _};
use std::hint::black_box;

const REPEATS: usize = 2;

#[repr(C)]
struct Time {
    seconds: c_long,
    nanoseconds: c_long,
}

extern "C" {
    fn clock_gettime(clock: c_int, time: *mut Time) -> c_int;
}

/// How long this thread ran, in nanoseconds.
fn used() -> i64 {
    const OF_THREAD: c_int = 3;
    let mut time = Time { seconds: 0, nanoseconds: 0 };
    // SAFETY: the pointer is to a `timespec`.
    unsafe { clock_gettime(OF_THREAD, &mut time) };
    1_000_000_000 * time.seconds + time.nanoseconds
}

/// What was measured of a text, as the inside of a JSON object.
struct Found(String);

impl Found {
    /// Asks each of these, and keeps the least time and the size of what they return.
    fn ask<T>(&mut self, name: &str, parts: &[T], ask: impl Fn(&T) -> usize) {
        let mut size = 0;
        let times = (0..REPEATS).map(|_| {
            let begin = used();
            size = black_box(parts.iter().map(&ask).sum());
            used() - begin
        });
        let least = times.min().unwrap_or_default();
        let comma = if self.0.is_empty() { "" } else { "," };
        write!(self.0, "{comma}\"{name}\":[{least},{size},{}]", parts.len()).unwrap();
    }
}

/// Asks parts of a type by these methods: how much each returns is said after its name.
macro_rules! asks {
    ($found:expr, $kind:literal, $parts:expr; $($name:ident($($given:expr),*) $size:expr),*) => {
        $($found.ask(concat!($kind, ".", stringify!($name)), $parts, |it| $size(it.$name($($given),*)));)*
    };
}

fn one<T>(returned: T) -> usize {
    black_box(returned);
    1
}

fn text<T: AsRef<str>>(returned: T) -> usize {
    1 + returned.as_ref().len()
}

fn maybe<T: AsRef<str>>(returned: Option<T>) -> usize {
    returned.map_or(1, text)
}

fn each<I: Iterator>(returned: I) -> usize {
    1 + returned.map(black_box).count()
}

fn shown<T: Debug>(returned: T) -> usize {
    text(format!("{returned:?}"))
}

fn whole<'d, 'a>(value: Option<Value<'d, 'a>>) -> usize {
    1 + match value {
        Some(Value::List(list)) => list.iter().map(|it| whole(Some(it))).sum(),
        Some(Value::Object(object)) => object.fields().into_iter().map(|field| whole(Some(field.1))).sum(),
        _ => 0,
    }
}

/// What each of the package's types of parts has.
macro_rules! part {
    ($found:expr, $kind:literal, $parts:expr; $($more:tt)*) => {
        asks!($found, $kind, $parts; node() one, text() text, line() one, column() one, excerpt() maybe, $($more)*)
    };
}

/// The parts of a document, by their types.
#[derive(Default)]
struct Parts<'d, 'a> {
    operations: Vec<Operation<'d, 'a>>,
    fragments: Vec<Fragment<'d, 'a>>,
    selections: Vec<Selection<'d, 'a>>,
    fields: Vec<Field<'d, 'a>>,
    spreads: Vec<FragmentSpread<'d, 'a>>,
    inlines: Vec<InlineFragment<'d, 'a>>,
    variables: Vec<VariableDefinition<'d, 'a>>,
    directives: Vec<Directive<'d, 'a>>,
    arguments: Vec<Argument<'d, 'a>>,
    values: Vec<Value<'d, 'a>>,
}

impl<'d, 'a> Parts<'d, 'a> {
    fn of(document: &'d Document<'a>) -> Self {
        let mut parts = Parts { operations: document.operations().collect(), ..Parts::default() };
        parts.fragments.extend(document.fragments());
        for operation in parts.operations.clone() {
            parts.directives.extend(operation.directives());
            parts.variables.extend(operation.variables());
            parts.select(operation.selections());
        }
        for fragment in parts.fragments.clone() {
            parts.directives.extend(fragment.directives());
            parts.select(fragment.selections());
        }
        for variable in parts.variables.clone() {
            parts.directives.extend(variable.directives());
            parts.values.extend(variable.default_value());
        }
        let of_directives: Vec<_> = parts.directives.iter().flat_map(|it| it.arguments()).collect();
        parts.arguments.extend(of_directives);
        let mut values: Vec<_> = parts.arguments.iter().map(|it| it.value()).chain(parts.values.drain(..)).collect();
        while let Some(value) = values.pop() {
            parts.values.push(value);
            match value {
                Value::List(list) => values.extend(list.iter()),
                Value::Object(object) => values.extend(object.fields().into_iter().map(|field| field.1)),
                _ => {}
            }
        }
        parts
    }

    /// Adds these selections, and those within.
    fn select(&mut self, selections: impl Iterator<Item = Selection<'d, 'a>>) {
        let mut around: Vec<_> = selections.collect();
        while let Some(selection) = around.pop() {
            self.selections.push(selection);
            self.directives.extend(selection.directives());
            match selection {
                Selection::Field(field) => {
                    self.fields.push(field);
                    self.arguments.extend(field.arguments());
                    around.extend(field.selections());
                }
                Selection::FragmentSpread(spread) => self.spreads.push(spread),
                Selection::InlineFragment(inline) => {
                    self.inlines.push(inline);
                    around.extend(inline.selections());
                }
            }
        }
    }

    fn ask(&self, found: &mut Found) {
        part!(found, "Operation", &self.operations; complexity() shown, kind() one, name() maybe, variables() each,
            directives() each, selections() each);
        part!(found, "Fragment", &self.fragments; name() text, type_condition() text, directives() each, selections() each);
        asks!(found, "Selection", &self.selections; as_field() one, node() one, directives() each);
        part!(found, "Field", &self.fields; alias() maybe, name() text, response_key() text, arguments() each,
            argument("b") one, directives() each, selections() each);
        part!(found, "FragmentSpread", &self.spreads; name() text, directives() each);
        part!(found, "InlineFragment", &self.inlines; type_condition() maybe, directives() each, selections() each);
        part!(found, "VariableDefinition", &self.variables; name() text, variable_type() text, default_value() whole,
            directives() each);
        part!(found, "Directive", &self.directives; name() text, arguments() each, argument("x") one);
        part!(found, "Argument", &self.arguments; name() text, value() |it| whole(Some(it)));
        found.ask("Value.==", &self.values, |it| one(it == it));
        found.ask("Value.fmt", &self.values, |it| shown(it));
        let lists: Vec<List> = self.values.iter().filter_map(list_of).collect();
        asks!(found, "List", &lists; iter() each, is_empty() one);
        let objects: Vec<Object> = self.values.iter().filter_map(object_of).collect();
        asks!(found, "Object", &objects; fields() |it: Vec<_>| 1 + it.len(), get("k") one, is_empty() one);
    }
}

fn list_of<'d, 'a>(value: &Value<'d, 'a>) -> Option<List<'d, 'a>> {
    if let Value::List(list) = value {
        Some(*list)
    } else {
        None
    }
}

fn object_of<'d, 'a>(value: &Value<'d, 'a>) -> Option<Object<'d, 'a>> {
    if let Value::Object(object) = value {
        Some(*object)
    } else {
        None
    }
}

fn ask_document(found: &mut Found, document: &Document) {
    asks!(found, "Document", &[document]; source() one, len() one, is_empty() one, node(0) one, nodes() each, definitions() each,
        operations() each, fragments() each, operation(Some("b")) one, fragment("b") one);
    found.ask("Document.into_owned", &[document], |it| one((*it).clone().into_owned()));
    let owned = [document.clone().into_owned()];
    asks!(found, "OwnedDocument", &owned; document() one, source() one, heap_size() one);
    let nodes: Vec<Node> = document.nodes().collect();
    asks!(found, "Node", &nodes; index() one, kind() one, descendants() one, start() one, end() one, text() text, name() maybe,
        value() shown, line() one, column() one, excerpt() maybe, children() each);
    found.ask("Node.==", &nodes, |it| one(it == it));
}

/// Asks the values of a document's arguments, and the types of its variables, each parsed alone.
fn ask_literals(found: &mut Found, document: &Document, limits: Limits) {
    let arguments = document.nodes().filter(|it| it.kind() == Kind::Argument);
    let values: Vec<&str> = arguments.filter_map(|it| it.children().next()).map(|it| it.text()).collect();
    found.ask("parse_value", &values, |it| one(firthnapkin::parse_value(it, limits)));
    found.ask("parse_const_value", &values, |it| one(firthnapkin::parse_const_value(it, limits)));
    let values: Vec<ParsedValue> = values.iter().map(|it| firthnapkin::parse_value(it, limits).unwrap()).collect();
    asks!(found, "ParsedValue", &values; value() shown, node() one, document() one);
    found.ask("ParsedValue.into_owned", &values, |it| one(it.clone().into_owned()));
    let owned: Vec<_> = values.iter().map(|it| it.clone().into_owned()).collect();
    asks!(found, "OwnedValue", &owned; parsed() one, source() one, heap_size() one);
    let types: Vec<&str> = document.nodes().filter(|it| it.kind() == Kind::Type).map(|it| it.text()).collect();
    found.ask("parse_type", &types, |it| one(firthnapkin::parse_type(it, limits)));
    let types: Vec<ParsedType> = types.iter().map(|it| firthnapkin::parse_type(it, limits).unwrap()).collect();
    asks!(found, "ParsedType", &types; as_str() text, node() one, document() one);
}

fn ask_tokens(found: &mut Found, tokens: &Tokens) {
    asks!(found, "Tokens", &[tokens]; source() one, len() one, is_empty() one, get(0) one, iter() each);
    let all: Vec<Token> = tokens.iter().collect();
    asks!(found, "Token", &all; kind() one, start() one, end() one, line() one, column() one, text() text, unquoted() text,
        excerpt() maybe);
    found.ask("Token.==", &all, |it| one(it == it));
}

fn ask_error(found: &mut Found, error: Error, source: &str) {
    let Error::Syntax(error) = error else { panic!("{error}") };
    asks!(found, "SyntaxError", &[&error]; line() one, column() one, excerpt(source) maybe);
    found.ask("Error.with_source_name", &[Error::from(error.clone())], |it| shown(it.clone().with_source_name("a")));
    found.ask("SyntaxError.==", &[error], |it| one(it == it));
}

fn line_of(source: &str) -> String {
    let limits = Limits { depth: MAX_DEPTH, ..Limits::default() };
    let document = firthnapkin::parse_within(source, limits).unwrap();
    let mut found = Found(String::new());
    found.ask("parse", &[source], |it| one(firthnapkin::parse_within(it, limits)));
    found.ask("check", &[source], |it| one(firthnapkin::check(it, limits)));
    found.ask("tokens", &[source], |it| one(firthnapkin::tokens(it)));
    found.ask("canonical", &[source], |it| one(firthnapkin::canonical(it)));
    ask_document(&mut found, &document);
    Parts::of(&document).ask(&mut found);
    ask_literals(&mut found, &document, limits);
    ask_tokens(&mut found, &firthnapkin::tokens(source).unwrap());
    let wrong = format!("{source} )");
    ask_error(&mut found, firthnapkin::parse_within(&wrong, limits).unwrap_err(), &wrong);
    format!("{{{}}}", found.0)
}

fn main() {
    let corpus = std::fs::read_to_string(std::env::args().nth(1).unwrap()).unwrap();
    let mut rest = corpus.as_str();
    while let Some((length, after)) = rest.split_once('\n') {
        let (source, after) = after.split_at(length.parse().unwrap());
        println!("{}", line_of(source));
        rest = &after[1..];
    }
}
