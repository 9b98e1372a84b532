//! Memory: the Rust's heap, counted in the allocator, and the stack of each, found by painting it first.

use crate::agree;
use crate::readers::{Readers, Who, LENT_BYTES};
use crate::texts::{Expected, Text};
use std::alloc::{GlobalAlloc, Layout, System};
use std::sync::atomic::{AtomicBool, AtomicUsize, Ordering::Relaxed};

static COUNTS: AtomicBool = AtomicBool::new(false);
static LIVE: AtomicUsize = AtomicUsize::new(0);
static PEAK: AtomicUsize = AtomicUsize::new(0);
static ALLOCATIONS: AtomicUsize = AtomicUsize::new(0);

/// The system's allocator, which also counts while it is told to.
pub struct Counting;

// SAFETY: every call is handed on unchanged.
unsafe impl GlobalAlloc for Counting {
    unsafe fn alloc(&self, layout: Layout) -> *mut u8 {
        count(0, layout.size());
        System.alloc(layout)
    }

    unsafe fn alloc_zeroed(&self, layout: Layout) -> *mut u8 {
        count(0, layout.size());
        System.alloc_zeroed(layout)
    }

    unsafe fn dealloc(&self, block: *mut u8, layout: Layout) {
        count(layout.size(), 0);
        System.dealloc(block, layout)
    }

    unsafe fn realloc(&self, block: *mut u8, layout: Layout, new_size: usize) -> *mut u8 {
        count(layout.size(), new_size);
        System.realloc(block, layout, new_size)
    }
}

#[inline(always)]
fn count(freed: usize, taken: usize) {
    if COUNTS.load(Relaxed) {
        count_on(freed, taken);
    }
}

/// Only one thread runs while numbers are asked for, and it frees nothing that is older.
#[cold]
fn count_on(freed: usize, taken: usize) {
    let live = LIVE.load(Relaxed) + taken - freed;
    LIVE.store(live, Relaxed);
    PEAK.fetch_max(live, Relaxed);
    ALLOCATIONS.fetch_add(usize::from(taken > 0), Relaxed);
}

struct Heap {
    peak: usize,
    allocations: usize,
}

/// The heap that something takes while it runs.
fn heap_of(work: impl FnOnce()) -> Heap {
    for number in [&LIVE, &PEAK, &ALLOCATIONS] {
        number.store(0, Relaxed);
    }
    COUNTS.store(true, Relaxed);
    work();
    COUNTS.store(false, Relaxed);
    Heap { peak: PEAK.load(Relaxed), allocations: ALLOCATIONS.load(Relaxed) }
}

/// A thread's stack, the part of it that is painted, and what is left free for the painter itself.
const STACK: usize = 8 << 20;
const PAINTED: usize = 6 << 20;
const SPARED: usize = 1_024;
const PAINT: u64 = 0xa5c3_96e1_5a3c_691e;

/// The stack that something takes, to a kilobyte.
fn stack_of(work: impl FnOnce() + Send) -> usize {
    std::thread::scope(|scope| {
        let thread = std::thread::Builder::new().stack_size(STACK);
        let thread = thread.spawn_scoped(scope, || painted(work)).expect("a thread can be started");
        thread.join().unwrap_or_else(|e| std::panic::resume_unwind(e))
    })
}

#[inline(never)]
fn painted(work: impl FnOnce()) -> usize {
    let mark = 0_u64;
    let here = std::hint::black_box(&raw const mark) as usize;
    let low = (here - PAINTED) as *mut u64;
    paint(low);
    apart(work);
    here - (low as usize + 8 * untouched(low))
}

#[inline(never)]
fn apart(work: impl FnOnce()) {
    work()
}

const PAINTED_NUMBERS: usize = (PAINTED - SPARED) / 8;

#[inline(never)]
fn paint(low: *mut u64) {
    for i in 0..PAINTED_NUMBERS {
        // SAFETY: this is the thread's own stack, mapped, and below all frames that are in use.
        unsafe { low.add(i).write_volatile(PAINT) }
    }
}

#[inline(never)]
fn untouched(low: *mut u64) -> usize {
    // SAFETY: as above.
    let touched = |i: &usize| unsafe { low.add(*i).read_volatile() } != PAINT;
    (0..PAINTED_NUMBERS).find(touched).unwrap_or(PAINTED_NUMBERS)
}

pub fn print(texts: &[Text]) -> Result<(), String> {
    println!("Bytes. Ours is lent {LENT_BYTES} bytes, whatever the text; its heap is what a call allocates.\n");
    println!("| text | bytes | Rust: heap, peak | allocations | stack | ours: heap | stack |");
    println!("|---|---|---|---|---|---|---|");
    for text in texts.iter().filter(|t| t.expected != Expected::TooLong) {
        agree::check(text)?;
        print_row(text);
    }
    Ok(())
}

fn print_row(text: &Text) {
    let mut readers = Readers::ready();
    let mut heap = |who| {
        heap_of(|| {
            readers.read(who, &text.text);
        })
    };
    let (rust, ours) = (heap(Who::Rust), heap(Who::Lent));
    let mut stack = |who| {
        stack_of(|| {
            readers.read(who, &text.text);
        })
    };
    let (rust_stack, our_stack) = (stack(Who::Rust), stack(Who::Lent));
    println!(
        "| {} | {} | {} | {} | {rust_stack} | {} | {our_stack} |",
        text.name,
        text.text.len(),
        rust.peak,
        rust.allocations,
        ours.peak
    );
}
