//! What values mean.

use crate::document::{Kind, Node};
use std::collections::HashMap;
use std::fmt;

/// A value, as Rust's own data. A list and an object refer to the document, so no call is nested as deep as they are.
#[derive(Clone, Copy, Debug, PartialEq)]
#[non_exhaustive]
pub enum Value<'d, 'a> {
    /// The value null.
    Null,
    /// True or false.
    Boolean(bool),
    /// An Int that `i64` holds.
    Int(i64),
    /// The nearest number to a Float.
    Float(f64),
    /// An Int that `i64` doesn't hold, or a Float that `f64` doesn't hold, as it is written.
    Number(&'a str),
    /// What a String or a block string means.
    String(&'d str),
    /// A value of an enum.
    Enum(Enum<'a>),
    /// A variable.
    Variable(Variable<'a>),
    /// A list of values.
    List(List<'d, 'a>),
    /// An object.
    Object(Object<'d, 'a>),
}

/// The value of an enum.
#[derive(Clone, Copy, Debug, PartialEq, Eq, Hash)]
pub struct Enum<'a> {
    /// Its name, as it is written.
    pub name: &'a str,
}

/// A variable used as a value.
#[derive(Clone, Copy, Debug, PartialEq, Eq, Hash)]
pub struct Variable<'a> {
    /// The name, without `$`.
    pub name: &'a str,
}

/// The values of a list.
#[derive(Clone, Copy, PartialEq, Eq)]
pub struct List<'d, 'a>(Node<'d, 'a>);

/// The fields of an object.
#[derive(Clone, Copy, PartialEq, Eq)]
pub struct Object<'d, 'a>(Node<'d, 'a>);

impl<'d, 'a> Value<'d, 'a> {
    pub(crate) fn of(node: Node<'d, 'a>) -> Self {
        let name = node.name().unwrap_or_default();
        match node.kind() {
            Kind::Boolean => Value::Boolean(node.is_true()),
            Kind::Int | Kind::LargeInt => node.text().parse().map_or(Value::Number(node.text()), Value::Int),
            Kind::Float => match node.text().parse() {
                Ok(number) if f64::is_finite(number) => Value::Float(number),
                _ => Value::Number(node.text()),
            },
            Kind::String | Kind::BlockString => Value::String(node.meaning()),
            Kind::Enum => Value::Enum(Enum { name }),
            Kind::Variable => Value::Variable(Variable { name }),
            Kind::List => Value::List(List(node)),
            Kind::Object => Value::Object(Object(node)),
            _ => Value::Null,
        }
    }
}

impl<'d, 'a> List<'d, 'a> {
    /// The values, in the order of the source.
    pub fn iter(&self) -> impl Iterator<Item = Value<'d, 'a>> {
        self.0.children().map(Value::of)
    }

    /// Whether there is none.
    pub fn is_empty(&self) -> bool {
        self.0.descendants() == 0
    }
}

impl<'d, 'a> Object<'d, 'a> {
    /// The fields by their names: one that is there twice is at its first position, with its last value.
    pub fn fields(&self) -> Vec<(&'a str, Value<'d, 'a>)> {
        let mut fields: Vec<(&'a str, Value<'d, 'a>)> = Vec::new();
        let mut positions = HashMap::new();
        for (name, value) in self.written() {
            let position = *positions.entry(name).or_insert(fields.len());
            match fields.get_mut(position) {
                Some(field) => field.1 = value,
                None => fields.push((name, value)),
            }
        }
        fields
    }

    /// The last value of a name.
    pub fn get(&self, name: &str) -> Option<Value<'d, 'a>> {
        self.written().filter(|field| field.0 == name).last().map(|field| field.1)
    }

    /// Whether there is no field.
    pub fn is_empty(&self) -> bool {
        self.0.descendants() == 0
    }

    /// The fields as they are written, also those that are there twice.
    fn written(&self) -> impl Iterator<Item = (&'a str, Value<'d, 'a>)> {
        self.0.children().filter_map(|field| Some((field.name()?, Value::of(field.children().next()?))))
    }
}

/// Writes the source's text, however deep the list is.
impl fmt::Debug for List<'_, '_> {
    fn fmt(&self, f: &mut fmt::Formatter<'_>) -> fmt::Result {
        f.write_str(self.0.text())
    }
}

/// Writes the source's text, however deep the object is.
impl fmt::Debug for Object<'_, '_> {
    fn fmt(&self, f: &mut fmt::Formatter<'_>) -> fmt::Result {
        f.write_str(self.0.text())
    }
}
