//! How much a call allocates: an array for the nodes and one for the texts, as often as the library is called. One for how large
//! operations are only if these have a limit, or are asked for. A check allocates that one alone.

use firthnapkin::{check, parse, parse_within, Limits};
use std::alloc::{GlobalAlloc, Layout, System};
use std::cell::Cell;

struct Counting;

thread_local! {
    static COUNT: Cell<usize> = const { Cell::new(0) };
}

// SAFETY: each call is the system allocator's.
unsafe impl GlobalAlloc for Counting {
    unsafe fn alloc(&self, layout: Layout) -> *mut u8 {
        COUNT.set(COUNT.get() + 1);
        unsafe { System.alloc(layout) }
    }

    unsafe fn dealloc(&self, block: *mut u8, layout: Layout) {
        unsafe { System.dealloc(block, layout) }
    }
}

#[global_allocator]
static ALLOCATOR: Counting = Counting;

fn allocations(source: &str) -> usize {
    let before = COUNT.get();
    let document = parse(source).unwrap();
    let count = COUNT.get() - before;
    drop(document);
    count
}

#[test]
fn one_call_for_a_document_of_as_many_nodes_as_a_request_has() {
    let request =
        "query Q($v: [T! ]! = [1, \"b\"] @d) { x: a(v: {k: 1.5, l: 99999999999, m: E, n: $v, o: true}) { id name } } ";
    for source in ["{ a }", request, &request.repeat(100)] {
        assert_eq!(allocations(source), 2, "{source:.40}");
    }
}

#[test]
fn two_calls_for_more_nodes_or_longer_texts() {
    // It has no texts, so the second call needs one array.
    assert_eq!(allocations(&format!("{{{}}}", "a ".repeat(1000))), 3);
    assert_eq!(allocations(&format!("{{a(b:\"{}\")}}", "c".repeat(1000))), 4);
}

#[test]
fn one_array_for_the_numbers_of_operations() {
    let source = "query A { a } query B { b ...F } fragment F on T { c }";
    let (before, limits) = (COUNT.get(), Limits { aliases: 5, ..Limits::default() });
    let document = parse_within(source, limits).unwrap();
    let measured = COUNT.get();
    let without_limits = allocations(source);
    let found = |document: &firthnapkin::Document| {
        let before = COUNT.get();
        assert_eq!(document.operation(Some("B")).unwrap().complexity().unwrap().fields, 2);
        COUNT.get() - before
    };
    assert_eq!(found(&document), 0);
    let later = parse(source).unwrap();
    let first = found(&later);
    assert_eq!(found(&later), 0);
    // The library's own requests are the same for both, and not counted here.
    assert_eq!((without_limits, measured - before, first), (2, 3, 1));
}

#[test]
fn a_check_builds_nothing() {
    let counted = |source: &str, limits: Limits| {
        let before = COUNT.get();
        check(source, limits).unwrap();
        COUNT.get() - before
    };
    let limited = Limits { fields: 1 << 20, ..Limits::default() };
    for source in ["{ a }".to_string(), format!("{{{}}}", "a ".repeat(100_000)), "{a(b:\"c\")}".repeat(4)] {
        assert_eq!((counted(&source, Limits::default()), counted(&source, limited)), (0, 1), "{source:.40}");
    }
    // More operations than there is room for at first.
    assert_eq!(counted(&"{a}".repeat(1000), limited), 2);
}
