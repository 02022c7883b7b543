//! How large operations are.

use crate::call::{at_first, measure_into, text_of, with_capacity};
use crate::document::{Document, Node, RawNode, Tree};
use crate::error::{Error, ErrorKind, SyntaxError};
use crate::Limits;
use std::fmt::Write;

/// How many numbers an operation has.
pub(crate) const NUMBERS: usize = 5;

/// How large an operation is with every fragment expanded. Numbers saturate at [`u32::MAX`]. They are those of the source
/// alone: no schema gives a field a weight, equal fields aren't merged, and `@skip` and `@include` leave nothing out.
#[repr(C)]
#[derive(Clone, Copy, Debug, Default, PartialEq, Eq, Hash)]
#[non_exhaustive]
pub struct Complexity {
    // tables.toml: complexity as fields
    /// The fields, at every depth.
    pub fields: u32,
    /// The fields with an alias.
    pub aliases: u32,
    /// The directives of the operation and of all in it, and of a fragment each time that it is spread.
    pub directives: u32,
    /// The fields that are in no other field.
    pub root_fields: u32,
    /// How many fields are nested in one another at most: 1 if no field is in another.
    pub depth: u32,
    // tables.toml: end
}

impl Complexity {
    /// In the order of the limits on them.
    fn numbers(&self) -> [u32; NUMBERS] {
        // tables.toml: complexity as an array
        [self.fields, self.aliases, self.directives, self.root_fields, self.depth]
        // tables.toml: end
    }
}

/// The complexity of an operation, as the library writes it.
#[repr(C)]
#[derive(Clone, Copy, Debug, PartialEq, Eq)]
pub(crate) struct RawComplexity {
    definition: u32,
    numbers: Complexity,
}

/// The complexity of the operation with the node of this index.
pub(crate) fn of_operation(complexities: &[RawComplexity], index: usize) -> Complexity {
    // They are in the order of their nodes.
    let place = complexities.partition_point(|it| (it.definition as usize) < index);
    complexities[place].numbers
}

/// What a call writes: nodes, texts, and the complexities of operations.
#[derive(Default)]
pub(crate) struct Written {
    pub nodes: Vec<RawNode>,
    pub texts: Vec<u8>,
    pub complexities: Vec<RawComplexity>,
}

/// How many of each there are, whatever the capacities.
#[derive(Clone, Copy)]
pub(crate) struct Lengths {
    pub nodes: usize,
    pub texts: usize,
    pub complexities: usize,
}

/// The document that a source is within limits, with how large its operations are, by a call on this thread's stack. A source has
/// few operations for its nodes.
pub(crate) fn measure<'a>(source: &'a str, limits: &Limits) -> Result<Document<'a>, Error> {
    let first = at_first(source);
    let mut lengths = Lengths { nodes: first + 16, texts: first + 64, complexities: first / 8 + 4 };
    loop {
        let mut into = Written {
            nodes: with_capacity(lengths.nodes)?,
            texts: with_capacity(lengths.texts)?,
            complexities: with_capacity(lengths.complexities)?,
        };
        let (is_whole, found) = measure_into(source, &limits.words(), &mut into)?;
        if is_whole {
            let document = Document::new(source, Tree::new(into.nodes, text_of(into.texts), limits.depth));
            within(&document, &into.complexities, limits)?;
            return Ok(document.measured(into.complexities));
        }
        lengths = found;
    }
}

/// An error if a source isn't a document within limits, by calls on this thread's stack. The error of an operation beyond a limit
/// is at its node, which another call finds.
pub(crate) fn check(source: &str, limits: &Limits) -> Result<(), Error> {
    let complexities = measure_alone(source, limits)?;
    match first_beyond(&complexities, &limits.sizes()) {
        Some(_) => measure(source, limits).map(drop),
        None => Ok(()),
    }
}

/// How large the operations of a document are, by a call on this thread's stack: no nodes are written, and no texts.
pub(crate) fn measure_alone(source: &str, limits: &Limits) -> Result<Vec<RawComplexity>, Error> {
    let mut length = at_first(source) / 8 + 4;
    loop {
        let mut into = Written { complexities: with_capacity(length)?, ..Written::default() };
        let (_, found) = measure_into(source, &limits.words(), &mut into)?;
        if found.complexities <= into.complexities.capacity() {
            return Ok(into.complexities);
        }
        length = found.complexities;
    }
}

/// An error at the first operation that exceeds a limit, if one does.
fn within(document: &Document<'_>, complexities: &[RawComplexity], limits: &Limits) -> Result<(), Error> {
    let sizes = limits.sizes();
    let Some((it, i)) = first_beyond(complexities, &sizes) else { return Ok(()) };
    let operation = document.node(it.definition as usize).expect("the library names an operation");
    Err(too_large(operation, Limits::COUNTED[i], it.numbers.numbers()[i], sizes[i])?.into())
}

/// The first operation that exceeds a limit, and its first number that does.
fn first_beyond<'c>(complexities: &'c [RawComplexity], sizes: &[u32; NUMBERS]) -> Option<(&'c RawComplexity, usize)> {
    complexities.iter().find_map(|it| {
        let numbers = it.numbers.numbers();
        (0..NUMBERS).find(|&i| numbers[i] > sizes[i]).map(|i| (it, i))
    })
}

/// The error of an operation that has this many of what is counted. The largest number stands for all above it, too.
fn too_large(operation: Node<'_, '_>, counted: &str, number: u32, limit: u32) -> Result<SyntaxError, Error> {
    const OTHER_WORDS: usize = 160;
    let mut message = String::new();
    let name = operation.name();
    message.try_reserve_exact(name.map_or(0, str::len) + OTHER_WORDS).map_err(|_| Error::OutOfMemory)?;
    let more = if number == u32::MAX { " or more" } else { "" };
    let written = match name {
        Some(name) => {
            write!(message, "Too many {counted} in operation \"{name}\": {number}{more}, with a limit of {limit}")
        }
        None => write!(
            message,
            "Too many {counted} in an operation without a name: {number}{more}, with a limit of {limit}"
        ),
    };
    written.expect("a String takes all words");
    let (start, end) = (operation.start(), operation.end());
    Ok(SyntaxError { message, kind: ErrorKind::OperationTooLarge, detail: None, start, end, source_name: None })
}
