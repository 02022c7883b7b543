//! Documents to keep: what they have, who may have them, and how much memory they take.

use firthnapkin::{parse, parse_within, Document, Limits, NodeValue, OwnedDocument, Value};
use std::alloc::{GlobalAlloc, Layout, System};
use std::cell::Cell;
use std::collections::HashMap;
use std::sync::{Arc, Mutex};
use std::thread;

/// The bytes that are allocated and not freed yet, by this thread.
struct Counting;

thread_local! {
    static LIVE: Cell<isize> = const { Cell::new(0) };
}

// SAFETY: each call is the system allocator's. What `realloc` does by default is alloc, copy and dealloc.
unsafe impl GlobalAlloc for Counting {
    unsafe fn alloc(&self, layout: Layout) -> *mut u8 {
        LIVE.set(LIVE.get() + layout.size() as isize);
        unsafe { System.alloc(layout) }
    }

    unsafe fn dealloc(&self, block: *mut u8, layout: Layout) {
        LIVE.set(LIVE.get() - layout.size() as isize);
        unsafe { System.dealloc(block, layout) }
    }
}

#[global_allocator]
static ALLOCATOR: Counting = Counting;

const SOURCE: &str = "query Q($v: [T! ]! = [1, \"é\"] @d) { x: a(v: {k: 1.5, m: E, n: $v}) { ...F } } \
    fragment F on U @e { b } query R { c ...F }";

/// A compile error if an owned document isn't that.
const fn is_kept_anywhere<T: Send + Sync + Clone + 'static>() {}
const _: () = is_kept_anywhere::<OwnedDocument>();

fn owned(source: &str) -> OwnedDocument {
    // The string is dropped.
    let dropped = source.to_string();
    parse(&dropped).unwrap().into_owned()
}

/// All that the nodes of a document say.
fn said(document: &Document) -> Vec<String> {
    document
        .nodes()
        .map(|it| {
            let spans = (it.start(), it.end(), it.text(), it.name(), it.descendants());
            format!("{:?} {spans:?} {:?}", it.kind(), it.value())
        })
        .collect()
}

#[test]
fn has_what_the_document_has() {
    for source in [SOURCE, "{a}", "fragment F on T { a }", "# é\n{ a(b: \"\"\"\n  𝄞\n\"\"\") }"] {
        let (kept, document) = (owned(source), parse(source).unwrap());
        assert_eq!((said(&kept.document()), kept.source()), (said(&document), source));
        assert_eq!(format!("{kept:?}"), format!("{document:?}"));
        let again = OwnedDocument::from(kept.document());
        assert_eq!((said(&again.document()), again.source()), (said(&document), source));
        assert_eq!(said(&kept.clone().document()), said(&document));
    }
    let kept = owned(SOURCE);
    let name = kept.document().operation(Some("R")).unwrap().name();
    assert_eq!(name, Some("R"));
    let document = kept.document();
    let field = document.operations().next().unwrap().selections().next().unwrap().as_field().unwrap();
    assert!(
        matches!(field.argument("v").unwrap().value(), Value::Object(it) if it.get("k") == Some(Value::Float(1.5)))
    );
    assert_eq!(document.node(2).unwrap().value(), NodeValue::Nothing);
}

/// What is found of operations is kept, by a document and by the next one; it needs the depth of the parse.
#[test]
fn complexities() {
    let limits = Limits { depth: 1000, ..Limits::default() };
    let deep = "{a".repeat(1000) + &"}".repeat(1000);
    let kept = parse_within(&deep, limits).unwrap().into_owned();
    assert_eq!(kept.document().operation(None).unwrap().complexity().unwrap().depth, 1000);
    let measured = parse_within(SOURCE, Limits { fields: 9, ..Limits::default() }).unwrap().into_owned();
    for kept in [measured, owned(SOURCE)] {
        let fields = |document: &Document| {
            let found = document.operations().map(|it| it.complexity().unwrap().fields);
            found.collect::<Vec<_>>()
        };
        assert_eq!(
            (fields(&kept.document()), fields(&kept.document()), fields(&kept.clone().document())),
            (vec![2, 2], vec![2, 2], vec![2, 2])
        );
    }
}

/// Nodes are the same in two documents of one owned one, and not in those of another.
#[test]
fn equal_nodes() {
    let (kept, other) = (owned(SOURCE), owned(SOURCE));
    let (one, two, third) = (kept.document(), kept.document(), other.document());
    assert_eq!(one.node(3), two.node(3));
    assert_eq!(one.node(3), one.clone().node(3));
    assert_ne!(one.node(3), two.node(4));
    assert_ne!(one.node(3), third.node(3));
    let parsed = parse(SOURCE).unwrap();
    assert_ne!(parsed.node(3), parsed.clone().node(3));
}

/// Several threads fill a cache and read from it.
#[test]
fn a_cache_across_threads() {
    let cache: Arc<Mutex<HashMap<String, Arc<OwnedDocument>>>> = Arc::default();
    let work = |number: usize| {
        let cache = cache.clone();
        thread::spawn(move || {
            for round in 0..200 {
                let source = format!("query Q{0} {{ a{0} ...F }} fragment F on T {{ b }}", (number + round) % 50);
                let kept = cache
                    .lock()
                    .unwrap()
                    .entry(source.clone())
                    .or_insert_with(|| Arc::new(parse(&source).unwrap().into_owned()))
                    .clone();
                let document = kept.document();
                let operation = document.operation(None).unwrap();
                assert_eq!(operation.text(), &source[..source.find(" fragment").unwrap()]);
                assert_eq!(operation.complexity().unwrap().fields, 2);
            }
        })
    };
    let threads: Vec<_> = (0..4).map(work).collect();
    threads.into_iter().for_each(|it| it.join().unwrap());
    assert_eq!(cache.lock().unwrap().len(), 50);
}

/// An owned document takes as many bytes as it says, and no more than its parts need. Nothing is left of it.
#[test]
fn memory() {
    for source in
        [SOURCE.to_string(), "{a}".to_string(), SOURCE.repeat(100), format!("{{a(b: \"{}\")}}", "é".repeat(500))]
    {
        let before = LIVE.get();
        let kept = parse(&source).unwrap().into_owned();
        let texts: usize = kept
            .document()
            .nodes()
            .filter(|it| matches!(format!("{:?}", it.kind()).as_str(), "String" | "BlockString" | "Type"))
            .map(|it| if let NodeValue::Text(text) = it.value() { text.len() } else { 0 })
            .sum();
        let wanted = source.len() + 64 * kept.document().len() + texts;
        assert_eq!((LIVE.get() - before, kept.heap_size()), (wanted as isize, wanted));
        let count = kept.document().operations().count();
        if source != SOURCE.repeat(100) {
            kept.document().operations().for_each(|it| assert!(it.complexity().is_ok()));
            // Their array may have room for more.
            assert!(kept.heap_size() >= wanted + 24 * count);
            assert_eq!(LIVE.get() - before, kept.heap_size() as isize);
            let again = OwnedDocument::from(kept.document());
            assert_eq!(again.heap_size(), wanted + 24 * count);
        }
        drop(kept);
        assert_eq!(LIVE.get(), before);
    }
}
