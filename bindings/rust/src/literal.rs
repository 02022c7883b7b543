//! Sources that are one value or one type, and then end.

use crate::call::{parse_as, Form};
use crate::document::{Document, Node};
use crate::error::Error;
use crate::owned::OwnedDocument;
use crate::value::Value;
use crate::Limits;

/// The value that a source is within these limits, of which those on operations say nothing.
///
/// ```
/// use firthnapkin::{parse_value, Limits, Value, Variable};
/// let parsed = parse_value("{a: [1, $b]}", Limits::default())?;
/// let Value::Object(object) = parsed.value() else { panic!() };
/// let Some(Value::List(list)) = object.get("a") else { panic!() };
/// assert_eq!(list.iter().collect::<Vec<_>>(), [Value::Int(1), Value::Variable(Variable { name: "b" })]);
/// # Ok::<(), firthnapkin::Error>(())
/// ```
pub fn parse_value(source: &str, limits: Limits) -> Result<ParsedValue<'_>, Error> {
    Ok(ParsedValue(parse_as(Form::Value, source, &limits)?))
}

/// The same of a value without variables: one is an error where it begins.
pub fn parse_const_value(source: &str, limits: Limits) -> Result<ParsedValue<'_>, Error> {
    Ok(ParsedValue(parse_as(Form::Constant, source, &limits)?))
}

/// The type that a source is within these limits, of which those on operations say nothing.
///
/// ```
/// use firthnapkin::{parse_type, Limits};
/// assert_eq!(parse_type("[ ID! ]", Limits::default())?.as_str(), "[ID!]");
/// # Ok::<(), firthnapkin::Error>(())
/// ```
pub fn parse_type(source: &str, limits: Limits) -> Result<ParsedType<'_>, Error> {
    Ok(ParsedType(parse_as(Form::Type, source, &limits)?))
}

/// A value that was parsed alone. It borrows its source.
#[derive(Clone, Debug)]
pub struct ParsedValue<'a>(Document<'a>);

impl<'a> ParsedValue<'a> {
    /// What the value means, as [`Argument::value`](crate::Argument::value).
    pub fn value(&self) -> Value<'_, 'a> {
        Value::of(self.node())
    }

    /// The value's node.
    pub fn node(&self) -> Node<'_, 'a> {
        self.0.first()
    }

    /// The document that has the value's nodes, and no definitions.
    pub fn document(&self) -> &Document<'a> {
        &self.0
    }

    /// A value to keep: it has a copy of the source, and no more memory than it needs.
    pub fn into_owned(self) -> OwnedValue {
        OwnedValue(self.0.into_owned())
    }
}

/// A value with its source. It borrows nothing: it is `Send`, `Sync` and `'static`.
///
/// ```
/// let owned = firthnapkin::parse_value(&String::from("[7]"), Default::default())?.into_owned();
/// let parsed = owned.parsed();
/// assert_eq!(parsed.node().text(), "[7]");
/// # Ok::<(), firthnapkin::Error>(())
/// ```
#[derive(Clone, Debug)]
pub struct OwnedValue(OwnedDocument);

impl OwnedValue {
    /// The value, which borrows from this one and copies nothing.
    pub fn parsed(&self) -> ParsedValue<'_> {
        ParsedValue(self.0.document())
    }

    /// The source that was parsed.
    pub fn source(&self) -> &str {
        self.0.source()
    }

    /// How many bytes of the heap it takes, as [`OwnedDocument::heap_size`].
    pub fn heap_size(&self) -> usize {
        self.0.heap_size()
    }
}

/// A type that was parsed alone. It borrows its source.
#[derive(Clone, Debug)]
pub struct ParsedType<'a>(Document<'a>);

impl<'a> ParsedType<'a> {
    /// The type without spaces, as `[ID!]!`.
    pub fn as_str(&self) -> &str {
        self.0.first().meaning()
    }

    /// The type's node.
    pub fn node(&self) -> Node<'_, 'a> {
        self.0.first()
    }

    /// The document that has the type's node, and no definitions.
    pub fn document(&self) -> &Document<'a> {
        &self.0
    }
}
