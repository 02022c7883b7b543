//! A proved parser of GraphQL's executable documents (October 2021).
//!
//! ```
//! let document = firthnapkin::parse("{ user(id: 4) { name } }")?;
//! let operation = document.operation(None).unwrap();
//! let user = operation.selections().next().unwrap().as_field().unwrap();
//! assert_eq!(user.argument("id").unwrap().value(), firthnapkin::Value::Int(4));
//! # Ok::<(), firthnapkin::Error>(())
//! ```

mod call;
mod complexity;
mod document;
mod error;
mod lexer;
mod literal;
mod owned;
mod parts;
mod schemas;
mod stack;
mod value;

pub use call::{canonical, check, parse, parse_within, tokens, tokens_within};
pub use complexity::Complexity;
pub use document::{Children, Document, Kind, Node, NodeValue, Position};
pub use error::{Error, ErrorDetail, ErrorKind, SyntaxError};
pub use lexer::{Token, TokenKind, Tokens};
pub use literal::{parse_const_value, parse_type, parse_value, OwnedValue, ParsedType, ParsedValue};
pub use owned::OwnedDocument;
pub use parts::{
    Argument, Directive, Field, Fragment, FragmentSpread, InlineFragment, Operation, OperationKind, Selection,
    VariableDefinition,
};
pub use value::{Enum, List, Object, Value, Variable};

/// How deep [`parse`] allows brackets to be nested.
pub const DEFAULT_DEPTH: u32 = 200;

/// The largest depth that [`parse_within`] takes.
pub const MAX_DEPTH: u32 = 1000;

use call::WORDS;
use complexity::NUMBERS;

/// Declares [`Limits`] and its default of what the lists below say of each limit: those of the library, and those on operations.
macro_rules! limits {
    ({$($name:ident: $type:ty = $default:expr, $about:literal;)*} {$($size:ident: $what:literal, $counted:literal;)*}) => {
        /// What a source may have.
        ///
        /// ```
        /// use firthnapkin::{parse_within, Limits};
        /// assert!(parse_within("{ a { b } }", Limits { tokens: 5, ..Limits::default() }).is_err());
        /// assert!(parse_within("{ a { b } }", Limits { fields: 1, ..Limits::default() }).is_err());
        /// ```
        ///
        /// Those on each operation are on the numbers of its [`Complexity`], which count with every fragment expanded.
        /// [`u32::MAX`] is no limit there.
        #[derive(Clone, Copy, Debug, PartialEq, Eq)]
        pub struct Limits {
            $(#[doc = $about] pub $name: $type,)*
            $(#[doc = $what] pub $size: u32,)*
        }

        /// Brackets nested [`DEFAULT_DEPTH`] deep, and no other limit.
        impl Default for Limits {
            fn default() -> Self {
                Limits { $($name: $default,)* $($size: u32::MAX,)* }
            }
        }

        impl Limits {
            /// What the limits on operations are on.
            pub(crate) const COUNTED: [&'static str; NUMBERS] = [$($counted,)*];

            /// Limits as the library takes them. In the words that have no limit 0 is none.
            pub(crate) fn words(&self) -> [u32; WORDS] {
                let own = [$(self.$name,)*];
                let mut words = [0; WORDS];
                words[..own.len()].copy_from_slice(&own);
                words
            }

            /// The limits on operations, in the order of their numbers.
            pub(crate) fn sizes(&self) -> [u32; NUMBERS] {
                [$(self.$size,)*]
            }

            /// Whether there is one on operations.
            pub(crate) fn has_sizes(&self) -> bool {
                self.sizes().iter().any(|&most| most != u32::MAX)
            }
        }
    };
}

// A limit is a line, in the order of the library's words. In later ones 0 is no limit. One on operations is a line of the second list,
// in the order of their numbers.
limits! {{
    depth: u32 = DEFAULT_DEPTH, "How deep brackets may be nested: from 0 to [`MAX_DEPTH`].";
    tokens: u32 = u32::MAX, "How many tokens there may be, the end of the source not counted; [`u32::MAX`] is no limit.";
} {
    // tables.toml: complexity as limits
    fields: "How many fields an operation may have, with every fragment expanded.", "fields";
    aliases: "How many aliases an operation may have.", "aliases";
    directives: "How many directives an operation may have.", "directives";
    root_fields: "How many fields of an operation may be in no other field.", "root fields";
    field_depth: "How deep fields may be nested in one another.", "levels of fields";
    // tables.toml: end
}}
