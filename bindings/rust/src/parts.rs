//! The parts of a document by their names. Each is made when it is asked for, over a node of the document, and copies nothing.

use crate::complexity::Complexity;
use crate::document::{Document, Kind, Node};
use crate::error::Error;
use crate::value::Value;

/// A part over a node, with what all parts have.
macro_rules! part {
    ($(#[$meta:meta])* $name:ident) => {
        $(#[$meta])*
        #[derive(Clone, Copy, Debug, PartialEq, Eq)]
        pub struct $name<'d, 'a>(pub(crate) Node<'d, 'a>);

        impl<'d, 'a> $name<'d, 'a> {
            /// The part's node, whose positions count from 0.
            pub fn node(&self) -> Node<'d, 'a> {
                self.0
            }

            /// The text of all of it, as it is written.
            pub fn text(&self) -> &'a str {
                self.0.whole_text()
            }

            /// The line where it starts, counted from 1. Lines end at line feeds.
            pub fn line(&self) -> u32 {
                self.0.line()
            }

            /// The column where it starts, in characters, counted from 1.
            pub fn column(&self) -> u32 {
                self.0.column()
            }

            /// The lines around its start, as [`SyntaxError::excerpt`](crate::SyntaxError::excerpt) has them; nothing if memory
            /// ran out.
            pub fn excerpt(&self) -> Option<String> {
                self.0.excerpt()
            }
        }
    };
}

part!(
    /// A query, a mutation or a subscription.
    Operation
);
part!(
    /// The definition of a fragment.
    Fragment
);
part!(
    /// A field that is selected.
    Field
);
part!(
    /// The use of a fragment by its name.
    FragmentSpread
);
part!(
    /// A fragment without a name.
    InlineFragment
);
part!(
    /// The definition of a variable by an operation.
    VariableDefinition
);
part!(
    /// A directive of a part of a document.
    Directive
);
part!(
    /// An argument of a field or a directive.
    Argument
);

/// What an [`Operation`] is.
#[derive(Clone, Copy, Debug, PartialEq, Eq, Hash)]
pub enum OperationKind {
    /// It only reads.
    Query,
    /// It writes.
    Mutation,
    /// It is long-lived.
    Subscription,
}

/// What is selected.
#[derive(Clone, Copy, Debug, PartialEq, Eq)]
pub enum Selection<'d, 'a> {
    /// A field.
    Field(Field<'d, 'a>),
    /// The use of a fragment by its name.
    FragmentSpread(FragmentSpread<'d, 'a>),
    /// A fragment without a name.
    InlineFragment(InlineFragment<'d, 'a>),
}

impl<'d, 'a> Selection<'d, 'a> {
    fn of(node: Node<'d, 'a>) -> Option<Self> {
        match node.kind() {
            Kind::Field => Some(Selection::Field(Field(node))),
            Kind::FragmentSpread => Some(Selection::FragmentSpread(FragmentSpread(node))),
            Kind::InlineFragment => Some(Selection::InlineFragment(InlineFragment(node))),
            _ => None,
        }
    }

    /// The field, if it is one.
    pub fn as_field(&self) -> Option<Field<'d, 'a>> {
        match self {
            Selection::Field(field) => Some(*field),
            _ => None,
        }
    }

    /// The part's node.
    pub fn node(&self) -> Node<'d, 'a> {
        match self {
            Selection::Field(Field(node))
            | Selection::FragmentSpread(FragmentSpread(node))
            | Selection::InlineFragment(InlineFragment(node)) => *node,
        }
    }

    /// The directives, in the order of the source.
    pub fn directives(&self) -> impl Iterator<Item = Directive<'d, 'a>> {
        directives(self.node())
    }
}

fn children<'d, 'a>(node: Node<'d, 'a>, kind: Kind) -> impl Iterator<Item = Node<'d, 'a>> {
    node.children().filter(move |child| child.kind() == kind)
}

/// The nodes in the list of this kind, if there is one.
fn listed<'d, 'a>(node: Node<'d, 'a>, kind: Kind) -> impl Iterator<Item = Node<'d, 'a>> {
    children(node, kind).take(1).flat_map(|list| list.children())
}

fn directives<'d, 'a>(node: Node<'d, 'a>) -> impl Iterator<Item = Directive<'d, 'a>> {
    children(node, Kind::Directive).map(Directive)
}

fn selections<'d, 'a>(node: Node<'d, 'a>) -> impl Iterator<Item = Selection<'d, 'a>> {
    node.children().filter_map(Selection::of)
}

fn arguments<'d, 'a>(node: Node<'d, 'a>) -> impl Iterator<Item = Argument<'d, 'a>> {
    listed(node, Kind::Arguments).map(Argument)
}

/// The first argument of a name.
fn first_named<'d, 'a>(mut arguments: impl Iterator<Item = Argument<'d, 'a>>, name: &str) -> Option<Argument<'d, 'a>> {
    arguments.find(|argument| argument.name() == name)
}

/// A name that each node of a kind has.
fn name<'a>(node: Node<'_, 'a>) -> &'a str {
    node.name().unwrap_or_default()
}

impl<'a> Document<'a> {
    /// The operations, in the order of the source.
    pub fn operations(&self) -> impl Iterator<Item = Operation<'_, 'a>> {
        self.definitions().filter(|node| node.kind() != Kind::FragmentDefinition).map(Operation)
    }

    /// The fragments, in the order of the source.
    pub fn fragments(&self) -> impl Iterator<Item = Fragment<'_, 'a>> {
        self.definitions().filter(|node| node.kind() == Kind::FragmentDefinition).map(Fragment)
    }

    /// The first operation of a name. Without a name the only operation, whatever its name, and none if there are several.
    pub fn operation(&self, name: Option<&str>) -> Option<Operation<'_, 'a>> {
        let mut operations = self.operations();
        match name {
            Some(name) => operations.find(|operation| operation.name() == Some(name)),
            None => operations.next().filter(|_| operations.next().is_none()),
        }
    }

    /// The first fragment of a name.
    pub fn fragment(&self, name: &str) -> Option<Fragment<'_, 'a>> {
        self.fragments().find(|fragment| fragment.name() == name)
    }
}

impl<'d, 'a> Operation<'d, 'a> {
    /// How large the operation is. Those of all operations are found when one is first asked for, and kept. An error if an operation
    /// of the document reaches a spread that names no fragment, or that is within the fragment that it names, or memory ran out.
    pub fn complexity(&self) -> Result<Complexity, Error> {
        self.0.document().complexity_of(self.0.index())
    }

    /// What it is.
    pub fn kind(&self) -> OperationKind {
        match self.0.kind() {
            Kind::Mutation => OperationKind::Mutation,
            Kind::Subscription => OperationKind::Subscription,
            _ => OperationKind::Query,
        }
    }

    /// The name, if there is one.
    pub fn name(&self) -> Option<&'a str> {
        self.0.name()
    }

    /// The variable definitions, in the order of the source.
    pub fn variables(&self) -> impl Iterator<Item = VariableDefinition<'d, 'a>> {
        listed(self.0, Kind::VariableDefinitions).map(VariableDefinition)
    }

    /// The directives, in the order of the source.
    pub fn directives(&self) -> impl Iterator<Item = Directive<'d, 'a>> {
        directives(self.0)
    }

    /// The selections, in the order of the source.
    pub fn selections(&self) -> impl Iterator<Item = Selection<'d, 'a>> {
        selections(self.0)
    }
}

impl<'d, 'a> Fragment<'d, 'a> {
    /// The name.
    pub fn name(&self) -> &'a str {
        name(self.0)
    }

    /// The name of the type that the fragment is on.
    pub fn type_condition(&self) -> &'a str {
        self.0.type_condition()
    }

    /// The directives, in the order of the source.
    pub fn directives(&self) -> impl Iterator<Item = Directive<'d, 'a>> {
        directives(self.0)
    }

    /// The selections, in the order of the source.
    pub fn selections(&self) -> impl Iterator<Item = Selection<'d, 'a>> {
        selections(self.0)
    }
}

impl<'d, 'a> Field<'d, 'a> {
    /// The alias, if there is one.
    pub fn alias(&self) -> Option<&'a str> {
        children(self.0, Kind::Alias).next().and_then(|alias| alias.name())
    }

    /// The name of the field, whatever its alias.
    pub fn name(&self) -> &'a str {
        name(self.0)
    }

    /// The alias, or the name if there is none: the key of the field in a response.
    pub fn response_key(&self) -> &'a str {
        self.alias().unwrap_or_else(|| self.name())
    }

    /// The arguments, in the order of the source.
    pub fn arguments(&self) -> impl Iterator<Item = Argument<'d, 'a>> {
        arguments(self.0)
    }

    /// The first argument of a name.
    pub fn argument(&self, name: &str) -> Option<Argument<'d, 'a>> {
        first_named(self.arguments(), name)
    }

    /// The directives, in the order of the source.
    pub fn directives(&self) -> impl Iterator<Item = Directive<'d, 'a>> {
        directives(self.0)
    }

    /// The selections in the field, in the order of the source.
    pub fn selections(&self) -> impl Iterator<Item = Selection<'d, 'a>> {
        selections(self.0)
    }
}

impl<'d, 'a> FragmentSpread<'d, 'a> {
    /// The name of the fragment.
    pub fn name(&self) -> &'a str {
        name(self.0)
    }

    /// The directives, in the order of the source.
    pub fn directives(&self) -> impl Iterator<Item = Directive<'d, 'a>> {
        directives(self.0)
    }
}

impl<'d, 'a> InlineFragment<'d, 'a> {
    /// The name of the type that the fragment is on, if there is one.
    pub fn type_condition(&self) -> Option<&'a str> {
        self.0.name()
    }

    /// The directives, in the order of the source.
    pub fn directives(&self) -> impl Iterator<Item = Directive<'d, 'a>> {
        directives(self.0)
    }

    /// The selections, in the order of the source.
    pub fn selections(&self) -> impl Iterator<Item = Selection<'d, 'a>> {
        selections(self.0)
    }
}

impl<'d, 'a> VariableDefinition<'d, 'a> {
    /// The name, without `$`.
    pub fn name(&self) -> &'a str {
        name(self.0)
    }

    /// The type without spaces, as `[ID!]!`.
    pub fn variable_type(&self) -> &'d str {
        children(self.0, Kind::Type).next().map_or("", |node| node.meaning())
    }

    /// The default value, if there is one.
    pub fn default_value(&self) -> Option<Value<'d, 'a>> {
        self.0.children().nth(1).filter(|node| node.kind() != Kind::Directive).map(Value::of)
    }

    /// The directives, in the order of the source.
    pub fn directives(&self) -> impl Iterator<Item = Directive<'d, 'a>> {
        directives(self.0)
    }
}

impl<'d, 'a> Directive<'d, 'a> {
    /// The name, without `@`.
    pub fn name(&self) -> &'a str {
        name(self.0)
    }

    /// The arguments, in the order of the source.
    pub fn arguments(&self) -> impl Iterator<Item = Argument<'d, 'a>> {
        arguments(self.0)
    }

    /// The first argument of a name.
    pub fn argument(&self, name: &str) -> Option<Argument<'d, 'a>> {
        first_named(self.arguments(), name)
    }
}

impl<'d, 'a> Argument<'d, 'a> {
    /// The name.
    pub fn name(&self) -> &'a str {
        name(self.0)
    }

    /// The value.
    pub fn value(&self) -> Value<'d, 'a> {
        self.0.children().next().map_or(Value::Null, Value::of)
    }
}
