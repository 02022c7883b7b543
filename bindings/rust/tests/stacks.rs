//! Calls in threads of any stack, each with a megabyte of variables of its own.

use firthnapkin::{parse, parse_within, Error, ErrorKind, Limits, MAX_DEPTH};
use std::cell::Cell;
use std::hint::black_box;

const OWN: usize = 1 << 20;

thread_local! {
    static OWN_BYTES: Cell<[u8; OWN]> = const { Cell::new([0; OWN]) };
}

/// Uses this thread's own variables, so that each thread has them.
fn use_own_bytes() {
    OWN_BYTES.with(|bytes| black_box(bytes.as_ptr()));
}

fn in_thread(stack: usize, run: impl FnOnce() + Send) {
    std::thread::scope(|scope| {
        std::thread::Builder::new().stack_size(stack).spawn_scoped(scope, run).unwrap();
    });
}

fn kind(source: &str, limits: Limits) -> ErrorKind {
    match parse_within(source, limits) {
        Err(Error::Syntax(error)) => error.kind,
        other => panic!("{source:.40}: {other:?}"),
    }
}

/// What begins a text, what is nested in it, what is in the middle, and what ends each part and the text. The beginning and the
/// middle are so many levels deep.
const NESTED: [(&str, &str, &str, &str, &str, u32); 5] = [
    ("", "{...", "{a}", "}", "", 1),
    ("", "{a", "{a}", "}", "", 1),
    ("{a(x:", "[", "1", "]", ")}", 2),
    ("{a(x:", "{k:", "1", "}", ")}", 2),
    ("query($a:", "[", "T", "]", "){a}", 1),
];

/// Documents as deep as the limits, and deeper texts.
fn parse_deep_texts() {
    use_own_bytes();
    for (head, part, middle, end, tail, levels) in NESTED {
        for depth in [0, 1, 2, 200, MAX_DEPTH] {
            let limits = Limits { depth, ..Limits::default() };
            let deeper = head.to_string() + &part.repeat(5000);
            assert_eq!(kind(&deeper, limits), ErrorKind::TooDeep);
            assert_eq!(kind(&deeper, Limits { tokens: 1, ..limits }), ErrorKind::TooManyTokens);
            if depth >= levels {
                let count = (depth - levels) as usize;
                let source = head.to_string() + &part.repeat(count) + middle + &end.repeat(count) + tail;
                assert_eq!(parse_within(&source, limits).unwrap().node(0).unwrap().text(), source);
            }
        }
    }
}

#[test]
fn stacks_of_many_sizes() {
    for size in [OWN + (1 << 16), OWN + (1 << 18), OWN + (1 << 19), OWN + (1 << 21), OWN + (1 << 22)] {
        in_thread(size, parse_deep_texts);
    }
}

fn address() -> usize {
    let here = 0u8;
    black_box(std::ptr::addr_of!(here)) as usize
}

/// Calls with so many bytes of the stack taken since an address.
fn deeper(begin: usize, taken: usize, call: &dyn Fn()) {
    let frame = [0u8; 1024];
    black_box(&frame);
    if begin - address() < taken {
        deeper(begin, taken, call);
    } else {
        call();
    }
    black_box(&frame);
}

#[test]
fn deep_in_a_stack() {
    const STACK: usize = 3 << 20;
    for left in [24, 40, 60, 100, 300, 600, 2400, 2600].map(|kilobytes| kilobytes << 10) {
        in_thread(OWN + STACK, move || deeper(address(), STACK - left, &parse_deep_texts));
    }
}

/// Of a stack that the program made itself no thread knows the bounds. This one is too small for a call.
#[cfg(all(target_arch = "x86_64", target_os = "linux"))]
#[test]
fn a_stack_of_the_programs_own() {
    extern "C" fn calls() {
        parse_deep_texts();
    }
    let mut stack = vec![0u8; 1 << 18];
    let top = stack.as_mut_ptr_range().end as usize / 16 * 16;
    // SAFETY: the call returns to the stack before it, whose pointer is kept where a call keeps it.
    unsafe {
        std::arch::asm!(
            "mov r12, rsp",
            "mov rsp, {top}",
            "call {calls}",
            "mov rsp, r12",
            top = in(reg) top,
            calls = sym calls,
            out("r12") _,
            clobber_abi("C"),
        );
    }
    assert_eq!(stack.len(), 1 << 18);
}

#[test]
fn threads() {
    let source = format!("query Q {{ {} }}", "user(id: 4, b: {c: [1.5, \"x\"]}) { id name } ".repeat(500));
    let wanted = format!("{:?}", parse(&source).unwrap());
    std::thread::scope(|scope| {
        for _ in 0..4 {
            scope.spawn(|| {
                for _ in 0..20 {
                    assert_eq!(format!("{:?}", parse(&source).unwrap()), wanted);
                }
            });
        }
    });
}
