//! Documents that borrow nothing.

use crate::document::{Document, Tree};
use std::fmt;

/// A document with its source. It borrows nothing, so a cache can keep it, and threads can share it: it is `Send`, `Sync` and
/// `'static`.
///
/// ```
/// use firthnapkin::{parse, OwnedDocument};
/// use std::{collections::HashMap, sync::Arc};
///
/// let mut cache: HashMap<String, Arc<OwnedDocument>> = HashMap::new();
/// let source = "query Pets { pets { name } }".to_string();
/// let kept = Arc::new(parse(&source)?.into_owned());
/// cache.insert(source, kept.clone());
/// std::thread::spawn(move || {
///     let document = kept.document();
///     assert_eq!(document.operation(Some("Pets")).unwrap().selections().count(), 1);
/// })
/// .join()
/// .unwrap();
/// # Ok::<(), firthnapkin::Error>(())
/// ```
///
/// It keeps a copy of the source, the texts of its strings and types, and 64 bytes for each node; and 24 for each operation once a
/// complexity was found.
#[derive(Clone)]
pub struct OwnedDocument {
    source: Box<str>,
    tree: Tree,
}

impl OwnedDocument {
    pub(crate) fn new(source: &str, tree: Tree) -> Self {
        OwnedDocument { source: source.into(), tree }
    }

    /// The document, which borrows from this one and copies nothing. Nodes are equal across the documents of one call and the next.
    pub fn document(&self) -> Document<'_> {
        Document::borrowed(&self.source, &self.tree)
    }

    /// The source that was parsed.
    pub fn source(&self) -> &str {
        &self.source
    }

    /// How many bytes of the heap it takes, for caches that limit these.
    ///
    /// ```
    /// let owned = firthnapkin::parse("{ user(name: \"é\") }")?.into_owned();
    /// // The source, five nodes, and what the string means.
    /// assert_eq!(owned.heap_size(), 20 + 5 * 64 + 2);
    /// # Ok::<(), firthnapkin::Error>(())
    /// ```
    pub fn heap_size(&self) -> usize {
        self.source.len() + self.tree.heap_size()
    }
}

impl From<Document<'_>> for OwnedDocument {
    fn from(document: Document<'_>) -> Self {
        document.into_owned()
    }
}

impl fmt::Debug for OwnedDocument {
    fn fmt(&self, f: &mut fmt::Formatter<'_>) -> fmt::Result {
        self.document().fmt(f)
    }
}
