//! A document's nodes.

use crate::call;
use crate::complexity::{self, Complexity, RawComplexity};
use crate::error::Error;
use crate::owned::OwnedDocument;
use std::fmt;
use std::mem::size_of;
use std::sync::OnceLock;

/// The kind of a node.
#[derive(Clone, Copy, Debug, PartialEq, Eq, Hash)]
#[non_exhaustive]
#[repr(u32)]
pub enum Kind {
    // tables.toml: kinds
    /// An operation that only reads.
    Query = 0,
    /// An operation that writes.
    Mutation = 1,
    /// A long-lived operation.
    Subscription = 2,
    /// The definition of a fragment.
    FragmentDefinition = 3,
    /// The variable definitions of an operation.
    VariableDefinitions = 4,
    /// A variable definition, by its name.
    VariableDefinition = 5,
    /// The type of a variable.
    Type = 6,
    /// A field that is selected.
    Field = 7,
    /// The alias of a field.
    Alias = 8,
    /// The use of a fragment by its name.
    FragmentSpread = 9,
    /// A fragment without a name; its name is its type condition.
    InlineFragment = 10,
    /// The use of a directive.
    Directive = 11,
    /// The arguments of a field or a directive.
    Arguments = 12,
    /// An argument, by its name.
    Argument = 13,
    /// The value null.
    Null = 14,
    /// A value of an enum.
    Enum = 15,
    /// A variable used as a value.
    Variable = 16,
    /// A list of values.
    List = 17,
    /// An object, with its fields.
    Object = 18,
    /// A field of an object, by its name.
    ObjectField = 19,
    /// An Int that 32 bits hold.
    Int = 20,
    /// An Int that 32 bits don't hold.
    LargeInt = 21,
    /// A number with a fraction or an exponent.
    Float = 22,
    /// A String between quotes.
    String = 23,
    /// A String between three quotes on each side.
    BlockString = 24,
    /// True or false.
    Boolean = 25,
    // tables.toml: end
}

/// The kinds by their numbers.
#[rustfmt::skip]
// tables.toml: kinds as a list
const KINDS: [Kind; 26] = [
    Kind::Query, Kind::Mutation, Kind::Subscription, Kind::FragmentDefinition, Kind::VariableDefinitions,
    Kind::VariableDefinition, Kind::Type, Kind::Field, Kind::Alias, Kind::FragmentSpread, Kind::InlineFragment,
    Kind::Directive, Kind::Arguments, Kind::Argument, Kind::Null, Kind::Enum, Kind::Variable, Kind::List, Kind::Object,
    Kind::ObjectField, Kind::Int, Kind::LargeInt, Kind::Float, Kind::String, Kind::BlockString, Kind::Boolean,
];
// tables.toml: end

/// The number of characters of the source, of line feeds, of characters of the line, and of bytes before a position: each is
/// counted from 0.
#[repr(C)]
#[derive(Clone, Copy, Debug, Default, PartialEq, Eq, PartialOrd, Ord, Hash)]
pub struct Position {
    /// The characters of the source before it.
    pub index: u32,
    /// The line feeds before it.
    pub line: u32,
    /// The characters of the line before it.
    pub column: u32,
    /// The bytes of the source before it.
    pub byte: u32,
}

/// As the library writes it.
#[repr(C)]
#[derive(Clone, Copy)]
pub(crate) struct RawNode {
    kind: u32,
    descendants: u32,
    start: Position,
    end: Position,
    name_start: u32,
    name_end: u32,
    value: i64,
    value_length: u32,
}

/// What the scalar of a node means; a type without spaces; the name of an enum or a variable; a fragment's type condition.
#[derive(Clone, Copy, Debug, PartialEq, Eq)]
#[non_exhaustive]
pub enum NodeValue<'d> {
    /// No such node.
    Nothing,
    /// The number of an Int that 32 bits hold.
    Int(i32),
    /// A Boolean.
    Boolean(bool),
    /// What a String or a block string means, a type without spaces, or a name.
    Text(&'d str),
    /// An Int beyond 32 bits or a Float, as it is written.
    Number(&'d str),
}

/// What a document has besides its source.
#[derive(Clone)]
pub(crate) struct Tree {
    nodes: Vec<RawNode>,
    texts: String,
    /// How deep brackets may be nested.
    depth: u32,
    /// Found when one is first asked for.
    complexities: OnceLock<Vec<RawComplexity>>,
}

impl Tree {
    pub(crate) fn new(nodes: Vec<RawNode>, texts: String, depth: u32) -> Self {
        Tree { nodes, texts, depth, complexities: OnceLock::new() }
    }

    /// The tree without room that it doesn't use.
    pub(crate) fn shrunk(mut self) -> Self {
        self.nodes.shrink_to_fit();
        self.texts.shrink_to_fit();
        if let Some(complexities) = self.complexities.get_mut() {
            complexities.shrink_to_fit();
        }
        self
    }

    /// How many bytes of the heap it takes.
    pub(crate) fn heap_size(&self) -> usize {
        let operations = self.complexities.get().map_or(0, Vec::capacity);
        self.nodes.capacity() * size_of::<RawNode>() + self.texts.capacity() + operations * size_of::<RawComplexity>()
    }
}

/// A tree of the document's own, or of an [`OwnedDocument`].
#[derive(Clone)]
enum Held<'a> {
    Own(Tree),
    Borrowed(&'a Tree),
}

/// A document: its parts by their names, and its nodes, each part before the parts in it.
///
/// It borrows its source. Its nodes take 64 bytes each, in an array with room for one for each four bytes of the source, or for all
/// if there are more. [`into_owned`](Document::into_owned) gives back what isn't used.
#[derive(Clone)]
pub struct Document<'a> {
    source: &'a str,
    tree: Held<'a>,
}

impl<'a> Document<'a> {
    pub(crate) fn new(source: &'a str, tree: Tree) -> Self {
        Document { source, tree: Held::Own(tree) }
    }

    pub(crate) fn borrowed(source: &'a str, tree: &'a Tree) -> Self {
        Document { source, tree: Held::Borrowed(tree) }
    }

    /// A document to keep: it has a copy of the source, and no more memory than it needs.
    ///
    /// ```
    /// let owned = firthnapkin::parse(&String::from("{ user { name } }"))?.into_owned();
    /// assert_eq!(owned.document().operation(None).unwrap().text(), "{ user { name } }");
    /// # Ok::<(), firthnapkin::Error>(())
    /// ```
    pub fn into_owned(self) -> OwnedDocument {
        let tree = match self.tree {
            Held::Own(tree) => tree,
            Held::Borrowed(tree) => tree.clone(),
        };
        OwnedDocument::new(self.source, tree.shrunk())
    }

    /// The document with how large its operations are.
    pub(crate) fn measured(self, complexities: Vec<RawComplexity>) -> Self {
        // They aren't found yet.
        let _ = self.tree().complexities.set(complexities);
        self
    }

    fn tree(&self) -> &Tree {
        match &self.tree {
            Held::Own(tree) => tree,
            Held::Borrowed(tree) => tree,
        }
    }

    /// The complexity of the operation with the node of this index.
    pub(crate) fn complexity_of(&self, index: usize) -> Result<Complexity, Error> {
        let tree = self.tree();
        if let Some(found) = tree.complexities.get() {
            return Ok(complexity::of_operation(found, index));
        }
        let found = call::complexities(self.source, tree.depth)?;
        Ok(complexity::of_operation(tree.complexities.get_or_init(|| found), index))
    }

    /// The source that was parsed.
    pub fn source(&self) -> &'a str {
        self.source
    }

    /// How many nodes there are.
    pub fn len(&self) -> usize {
        self.tree().nodes.len()
    }

    /// Always false: a document has a definition.
    pub fn is_empty(&self) -> bool {
        self.tree().nodes.is_empty()
    }

    /// The node of this index, if there is one.
    pub fn node(&self, index: usize) -> Option<Node<'_, 'a>> {
        (index < self.len()).then_some(Node { document: self, index })
    }

    /// The nodes, each part before the parts in it.
    pub fn nodes(&self) -> impl ExactSizeIterator<Item = Node<'_, 'a>> + DoubleEndedIterator {
        (0..self.len()).map(move |index| Node { document: self, index })
    }

    /// The nodes of the operations and fragments. A value or a type that was parsed alone has none.
    pub fn definitions(&self) -> Children<'_, 'a> {
        let is_literal = self.node(0).is_some_and(|node| node.raw().kind > Kind::FragmentDefinition as u32);
        Children { document: self, index: 0, end: if is_literal { 0 } else { self.len() } }
    }

    /// The first node, which a document, a value and a type have.
    pub(crate) fn first(&self) -> Node<'_, 'a> {
        Node { document: self, index: 0 }
    }
}

impl fmt::Debug for Document<'_> {
    fn fmt(&self, f: &mut fmt::Formatter<'_>) -> fmt::Result {
        f.debug_list().entries(self.nodes()).finish()
    }
}

/// A part of a document, as the library writes it. Its names and texts borrow from the source, and so may be kept after the document is dropped:
///
/// ```
/// let source = "{ user { name } }".to_string();
/// let text = firthnapkin::parse(&source)?.node(2).unwrap().text();
/// assert_eq!(text, "name");
/// # Ok::<(), firthnapkin::Error>(())
/// ```
///
/// They may not be kept after the source:
///
/// ```compile_fail,E0597
/// let text = {
///     let source = "{ user { name } }".to_string();
///     let document = firthnapkin::parse(&source).unwrap();
///     document.node(2).unwrap().text()
/// };
/// println!("{text}");
/// ```
///
/// A node borrows from the document, and so does what a string means:
///
/// ```compile_fail,E0505
/// let document = firthnapkin::parse("{ user }").unwrap();
/// let node = document.node(1).unwrap();
/// drop(document);
/// println!("{node:?}");
/// ```
///
/// ```compile_fail,E0505
/// let document = firthnapkin::parse("{ user(name: \"a\") }").unwrap();
/// let value = document.node(4).unwrap().value();
/// drop(document);
/// println!("{value:?}");
/// ```
#[derive(Clone, Copy)]
pub struct Node<'d, 'a> {
    document: &'d Document<'a>,
    index: usize,
}

impl<'d, 'a> Node<'d, 'a> {
    fn raw(&self) -> &'d RawNode {
        &self.document.tree().nodes[self.index]
    }

    pub(crate) fn document(&self) -> &'d Document<'a> {
        self.document
    }

    /// The index among the document's nodes.
    pub fn index(&self) -> usize {
        self.index
    }

    /// What it is a node of.
    pub fn kind(&self) -> Kind {
        KINDS[self.raw().kind as usize]
    }

    /// How many of the nodes after this one are of parts in it.
    pub fn descendants(&self) -> usize {
        self.raw().descendants as usize
    }

    /// The position of the first character.
    pub fn start(&self) -> Position {
        self.raw().start
    }

    /// The position after the last character.
    pub fn end(&self) -> Position {
        self.raw().end
    }

    /// The text of the node, as it is written.
    pub fn text(&self) -> &'a str {
        &self.document.source[self.raw().start.byte as usize..self.raw().end.byte as usize]
    }

    /// The name, without `$` and `@`; of an inline fragment its type condition.
    pub fn name(&self) -> Option<&'a str> {
        use Kind::*;
        let (start, end) = (self.raw().name_start as usize, self.raw().name_end as usize);
        match self.kind() {
            Type | Null | Int | LargeInt | Float | String | BlockString | Boolean => None,
            _ => (start < end).then(|| &self.document.source[start..end]),
        }
    }

    /// What it means, or names besides its name.
    pub fn value(&self) -> NodeValue<'d> {
        let raw = self.raw();
        match self.kind() {
            Kind::Int => NodeValue::Int(raw.value as i32),
            Kind::Boolean => NodeValue::Boolean(self.is_true()),
            Kind::LargeInt | Kind::Float => NodeValue::Number(self.text()),
            Kind::String | Kind::BlockString | Kind::Type => NodeValue::Text(self.meaning()),
            Kind::FragmentDefinition => NodeValue::Text(self.type_condition()),
            Kind::Enum | Kind::Variable => self.name().map_or(NodeValue::Nothing, NodeValue::Text),
            _ => NodeValue::Nothing,
        }
    }

    /// Whether a Boolean is true.
    pub(crate) fn is_true(&self) -> bool {
        self.raw().value == 1
    }

    /// What a string means, and a type without spaces.
    pub(crate) fn meaning(&self) -> &'d str {
        self.of_value(&self.document.tree().texts)
    }

    /// The type condition of a fragment.
    pub(crate) fn type_condition(&self) -> &'a str {
        self.of_value(self.document.source)
    }

    /// The part of a text that the node's value is.
    fn of_value<'t>(&self, text: &'t str) -> &'t str {
        let start = self.raw().value as usize;
        &text[start..start + self.raw().value_length as usize]
    }

    /// The text up to the end of what is in the node, if the node itself ends with its name.
    pub(crate) fn whole_text(&self) -> &'a str {
        let last = match self.kind() {
            Kind::VariableDefinition | Kind::Argument => self.children().last().unwrap_or(*self),
            _ => *self,
        };
        &self.document.source[self.raw().start.byte as usize..last.raw().end.byte as usize]
    }

    /// The line where it starts, counted from 1. Lines end at line feeds.
    pub fn line(&self) -> u32 {
        self.raw().start.line + 1
    }

    /// The column where it starts, in characters, counted from 1.
    pub fn column(&self) -> u32 {
        self.raw().start.column + 1
    }

    /// The lines around its start, as [`SyntaxError::excerpt`](crate::SyntaxError::excerpt) has them; nothing if memory runs out.
    pub fn excerpt(&self) -> Option<String> {
        call::excerpt(self.document.source, self.raw().start.byte)
    }

    /// The nodes of the parts in this one that are in no other part in it.
    pub fn children(&self) -> Children<'d, 'a> {
        Children { document: self.document, index: self.index + 1, end: self.index + 1 + self.descendants() }
    }
}

impl PartialEq for Node<'_, '_> {
    /// Whether both are the same node of one document.
    fn eq(&self, other: &Self) -> bool {
        std::ptr::eq(self.document.tree(), other.document.tree()) && self.index == other.index
    }
}

impl Eq for Node<'_, '_> {}

impl fmt::Debug for Node<'_, '_> {
    fn fmt(&self, f: &mut fmt::Formatter<'_>) -> fmt::Result {
        write!(f, "{:?}({:?})", self.kind(), self.text())
    }
}

/// Nodes of which none is in another.
#[derive(Clone, Debug)]
pub struct Children<'d, 'a> {
    document: &'d Document<'a>,
    index: usize,
    end: usize,
}

impl<'d, 'a> Iterator for Children<'d, 'a> {
    type Item = Node<'d, 'a>;

    fn next(&mut self) -> Option<Self::Item> {
        if self.index == self.end {
            return None;
        }
        let node = Node { document: self.document, index: self.index };
        self.index += 1 + node.descendants();
        Some(node)
    }
}

impl std::iter::FusedIterator for Children<'_, '_> {}
