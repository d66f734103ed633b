//! An allocator that refuses what a test wants it to, of what one thread asks for during one call.

use std::alloc::{GlobalAlloc, Layout, System};
use std::cell::Cell;
use std::ops::Range;

/// The system's allocator, but for what it refuses.
pub struct Refusing;

/// What a call asked for.
#[derive(Clone, Copy, Default)]
pub struct Asked {
    /// How many allocations.
    pub allocations: usize,
    /// How many of them were neither refused nor freed.
    pub kept: isize,
    /// The most bytes of one of them.
    pub largest: usize,
}

/// What is refused of a call, by the numbers of its allocations, and what it has asked for.
#[derive(Clone, Copy)]
struct Watch {
    first: usize,
    end: usize,
    asked: Asked,
}

thread_local! {
    static WATCH: Cell<Option<Watch>> = const { Cell::new(None) };
}

/// Notes an allocation of so many bytes, and says whether it is refused.
fn is_refused(size: usize) -> bool {
    let Some(Watch { first, end, asked }) = WATCH.get() else {
        return false;
    };
    let is_refused = (first..end).contains(&asked.allocations);
    let asked = Asked {
        allocations: asked.allocations + 1,
        kept: asked.kept + isize::from(!is_refused),
        largest: asked.largest.max(size),
    };
    WATCH.set(Some(Watch { first, end, asked }));
    is_refused
}

/// Notes that an allocation is freed, or gives way to another one.
fn note_freed() {
    if let Some(mut watch) = WATCH.get() {
        watch.asked.kept -= 1;
        WATCH.set(Some(watch));
    }
}

// SAFETY: each allocation is the system's, or null.
unsafe impl GlobalAlloc for Refusing {
    unsafe fn alloc(&self, layout: Layout) -> *mut u8 {
        match is_refused(layout.size()) {
            true => std::ptr::null_mut(),
            // SAFETY: the caller ensures what the system asks for.
            false => unsafe { System.alloc(layout) },
        }
    }

    unsafe fn alloc_zeroed(&self, layout: Layout) -> *mut u8 {
        match is_refused(layout.size()) {
            true => std::ptr::null_mut(),
            // SAFETY: the caller ensures what the system asks for.
            false => unsafe { System.alloc_zeroed(layout) },
        }
    }

    unsafe fn realloc(&self, place: *mut u8, layout: Layout, size: usize) -> *mut u8 {
        match is_refused(size) {
            true => std::ptr::null_mut(),
            false => {
                note_freed();
                // SAFETY: the caller ensures what the system asks for.
                unsafe { System.realloc(place, layout, size) }
            }
        }
    }

    unsafe fn dealloc(&self, place: *mut u8, layout: Layout) {
        note_freed();
        // SAFETY: the caller ensures what the system asks for.
        unsafe { System.dealloc(place, layout) }
    }
}

/// Makes a call of which these allocations are refused, and says what it asked for.
pub fn refusing<T>(refused: Range<usize>, call: impl FnOnce() -> T) -> (T, Asked) {
    WATCH.set(Some(Watch {
        first: refused.start,
        end: refused.end,
        asked: Asked::default(),
    }));
    let answer = call();
    let watch = WATCH.take().unwrap();
    (answer, watch.asked)
}

/// Makes a call with each of its allocations refused in turn, alone and with those after it. Gives these
/// answers, and then that of a call of which none is refused.
pub fn each_refused<T>(mut call: impl FnMut() -> T) -> (Vec<T>, T) {
    let mut answers = Vec::new();
    let mut number = 0;
    loop {
        let (answer, asked) = refusing(number..number + 1, &mut call);
        if asked.allocations <= number {
            return (answers, answer);
        }
        answers.push(answer);
        answers.push(refusing(number..usize::MAX, &mut call).0);
        number += 1;
    }
}
