//! A formatter's buffers are as long as its sources need, and serve again: the second call on a source allocates
//! nothing.

use std::alloc::{GlobalAlloc, Layout, System};
use std::cell::Cell;

use wirescript_format::{Formatter, LineEnding, Options};

thread_local! {
    static ALLOCATIONS: Cell<u64> = const { Cell::new(0) };
    static BYTES: Cell<usize> = const { Cell::new(0) };
}

/// Counts what the thread asks for.
struct Counting;

// SAFETY: it hands every call on as it is.
unsafe impl GlobalAlloc for Counting {
    unsafe fn alloc(&self, layout: Layout) -> *mut u8 {
        ALLOCATIONS.set(ALLOCATIONS.get() + 1);
        BYTES.set(BYTES.get() + layout.size());
        // SAFETY: the caller keeps the rules of `System`.
        unsafe { System.alloc(layout) }
    }

    unsafe fn dealloc(&self, at: *mut u8, layout: Layout) {
        // SAFETY: the caller keeps the rules of `System`.
        unsafe { System.dealloc(at, layout) }
    }
}

#[global_allocator]
static COUNTING: Counting = Counting;

/// How many allocations the first of two equal calls makes, and how many the second.
fn twice(mut call: impl FnMut()) -> (u64, u64) {
    let mut count = || {
        let before = ALLOCATIONS.get();
        call();
        ALLOCATIONS.get() - before
    };
    (count(), count())
}

#[test]
fn the_second_call_allocates_nothing() {
    let options = Options::new().width(Some(10));
    let lf = Options::new().line_ending(LineEnding::Lf);
    // the text is much longer than the first guess
    let source = "(\n".repeat(300) + "aaaaaa -5";
    let chain = "a".to_owned() + &"+a".repeat(500);
    let mut formatter = Formatter::new();
    let calls = [
        twice(|| assert!(formatter.format(&source, &options).is_ok())),
        twice(|| assert!(formatter.format_stable(&source, &options).is_ok())),
        twice(|| assert!(formatter.format_with_caret(&source, &options, 2, 0).is_ok())),
        twice(|| assert!(formatter.group(&chain).is_ok())),
        twice(|| assert!(formatter.text_kind_at(&source, 2, 0).is_ok())),
        twice(|| assert!(formatter.is_formatted(&source, &lf).is_ok())),
    ];
    assert!(calls[0].0 > 0, "the first call allocates");
    assert_eq!(calls.map(|(_, second)| second), [0; 6]);
}

/// The list of open brackets has 8,000 bytes; scratch and output grow with the source.
#[test]
fn a_short_source_needs_little() {
    let before = BYTES.get();
    let mut formatter = Formatter::new();
    assert!(formatter.format("f(a ,b)", &Options::new()).is_ok());
    assert!(formatter.format("f(a, b)", &Options::new()).is_ok());
    assert!(BYTES.get() - before < 10_000);
}
