//! Want of memory at each place: every allocation of every call is refused in turn. None ends the process.

mod common;
#[path = "common/refusing.rs"]
mod refusing;

use common::grants;
use papr::{
    decode, flags, Access, CommitRefused, DeviceOutcome, Error, Grants, Layout, NoMemory, Outcome,
    Prepared, Segments, Table, TableError, TakeError, TransferRefusal, Want, Window, WindowError,
};
use refusing::{each_refused, refusing, Refusing};
use std::fmt::Debug;

#[global_allocator]
static ALLOCATOR: Refusing = Refusing;

/// All allocations of a call.
const ALL: std::ops::Range<usize> = 0..usize::MAX;

/// The answer to a call without refusals, after this error at each allocation that is refused.
fn after_refusals<T, E>(error: E, call: impl FnMut() -> Result<T, E>) -> T
where
    E: Debug + PartialEq,
{
    let (refused, right) = each_refused(call);
    assert!(!refused.is_empty(), "it takes no memory");
    for answer in refused {
        assert_eq!(answer.err().as_ref(), Some(&error));
    }
    right.unwrap()
}

/// The answer to a call that takes no memory.
fn without_memory<T>(call: impl FnOnce() -> T) -> T {
    let (answer, asked) = refusing(ALL, call);
    assert_eq!(asked.allocations, 0);
    answer
}

/// A table that has the page at 0x5000 of segment 1 in entry 0x22, bolted, after that of another page.
fn table() -> Table {
    let mut table = Table::new(18, grants()).unwrap();
    table.h_enter(flags::EXACT, 0x21, 0x2001, 0x4012);
    table.h_enter(flags::EXACT, 0x22, 0x1011, 0x3012);
    table
}

#[test]
fn new_tables_and_windows() {
    let table = after_refusals(TableError::NoMemory, || Table::new(18, grants()));
    assert_eq!(table.entries().len(), 1 << 14);
    let window = || Window::new(0x7000, 3, grants());
    let mut window = after_refusals(WindowError::NoMemory, window);
    assert_eq!(window.get_tce(0x7000).result(), Ok(&[0][..]));
    let (table, _) = refusing(ALL, || Table::new(18, Grants::default()));
    let told = table.unwrap_err().to_string();
    assert_eq!(told, "there is no memory for the table");
    let order = without_memory(|| Table::new(35, Grants::default()));
    assert_eq!(order.unwrap_err(), TableError::Order(35));
}

#[test]
fn copies() {
    let mut table = table();
    table.h_resize_hpt_prepare(0, 18, 22).unwrap();
    let mut copy = after_refusals(NoMemory, || table.try_clone());
    assert_eq!(copy.entries(), table.entries());
    assert_eq!(copy.h_resize_hpt_commit(0, 18), Ok(()));
    assert!(copy.entries() != table.entries());
    assert!(table.entries()[0x21].valid);
    let mut window = Window::new(0x7000, 3, grants()).unwrap();
    window.put_tce(0x8000, 0x4001);
    let mut copy = after_refusals(NoMemory, || window.try_clone());
    window.put_tce(0x8000, 0);
    assert_eq!(copy.get_tce(0x8000).words(), [0x4001]);
    assert_eq!(window.get_tce(0x8000).words(), [0]);
}

#[test]
fn a_resize_that_is_refused_takes_no_memory() {
    let mut table = table();
    let refused = [
        (0, 34, 22, Error::Resource),
        (0, 35, u8::MAX, Error::Resource),
        (1, 34, 34, Error::Parameter),
        (0, 17, 34, Error::Parameter),
        (0, 47, u8::MAX, Error::Parameter),
        (0, u64::MAX, u8::MAX, Error::Parameter),
    ];
    for pending in [false, true] {
        for (flags, shift, limit, error) in refused {
            let prepared = without_memory(|| table.h_resize_hpt_prepare(flags, shift, limit));
            assert_eq!(prepared, Err(error));
        }
        let commit = without_memory(|| table.h_resize_hpt_commit(0, 19));
        let error = if pending { Error::Busy } else { Error::Closed };
        assert_eq!(commit, Err(CommitRefused::Error(error)));
        table.h_resize_hpt_prepare(0, 19, 22).unwrap();
    }
}

#[test]
fn a_resize() {
    let mut table = table();
    let prepared = after_refusals(Error::NoMem, || table.h_resize_hpt_prepare(0, 19, 22));
    assert_eq!(prepared, Prepared::LongBusy);
    let prepared = without_memory(|| table.h_resize_hpt_prepare(0, 19, 22));
    assert_eq!(prepared, Ok(Prepared::Ready));
    // Where there is no memory for another order, nothing is pending any more.
    let (prepared, _) = refusing(ALL, || table.h_resize_hpt_prepare(0, 20, 22));
    assert_eq!(prepared, Err(Error::NoMem));
    for shift in [19, 20] {
        let commit = table.h_resize_hpt_commit(0, shift);
        assert_eq!(commit, Err(CommitRefused::Error(Error::Closed)));
    }
    assert!(table.entries()[0x21].valid);
    table.h_resize_hpt_prepare(0, 18, 22).unwrap();
    assert_eq!(without_memory(|| table.h_resize_hpt_commit(0, 18)), Ok(()));
    table.h_resize_hpt_prepare(0, 18, 22).unwrap();
    let dropped = without_memory(|| table.h_resize_hpt_prepare(0, 0, 22));
    assert_eq!(dropped, Ok(Prepared::Ready));
}

#[test]
fn a_mark_that_is_not_told_is_not_taken() {
    let mut table = table();
    let taken = after_refusals(TakeError::NoMemory, || table.take_changed(0, usize::MAX));
    assert_eq!((taken.indexes, taken.next), (vec![0x21, 0x22], 1 << 14));
}

#[test]
fn entries_as_bytes() {
    let mut table = table();
    let export = || table.export_entries(Layout::Old, 0x21..0x23);
    let (refused, bytes) = each_refused(export);
    assert!(!refused.is_empty());
    for answer in refused {
        let refused = answer.unwrap_err();
        assert_eq!(
            (refused.index, refused.refusal),
            (0x21, TransferRefusal::NoMemory)
        );
    }
    let bytes = bytes.unwrap();
    assert_eq!(bytes[..8], 0x2001_u64.to_be_bytes());
    let import = || table.import_entries(Layout::Old, 0x31, &bytes);
    assert_eq!(without_memory(import), Ok(()));
}

#[test]
fn calls_take_no_memory() {
    let mut table = table();
    let codes = without_memory(|| {
        [
            table.h_enter(0, 0x40, 0x3001, 0x5012).code(),
            table.h_protect(2, 0x40, 0).code(),
            table.h_read(flags::READ_4, 0x40).code(),
            table.h_clear_ref(0, 0x40).code(),
            table.h_clear_mod(0, 0x40).code(),
            table.h_bulk_remove(&[3 << 62; 8]).code(),
            table.h_remove(0, 0x40, 0).code(),
            table.hcall(0x0C, [0; 8]).code(),
        ]
    });
    assert_eq!(codes, [0; 8]);
}

#[test]
fn walks_and_a_rehash_take_no_memory() {
    let (mut table, mut other) = (table(), table());
    let access = Access::new(0x5678, 1, Want::Load);
    let walks = without_memory(|| [table.walk(&access), table.probe(&access)]);
    for walk in walks {
        assert_eq!(walk.outcome(), Outcome::At { logical: 0x3678 });
    }
    let rehashed = without_memory(|| table.rehash_into(&mut other));
    assert_eq!(rehashed, Ok(()));
    assert!(!other.entries()[0x21].valid && other.entries()[0x22].valid);
    let pages = without_memory(|| [table.page(0x22), decode(18, 0x20, 0x1000, 0x3012)]);
    assert_eq!(pages.map(|page| page.is_ok()), [true, false]);
}

#[test]
fn segments_and_windows_take_no_memory() {
    let mut segments = Segments::new();
    let found = without_memory(|| {
        let written = segments.slbmte(0x1800_0003, 0x5D00);
        written.map(|()| segments.clone().find(0x1234_5678))
    });
    assert_eq!(found.unwrap().map(|slot| slot.vsid), Some(5));
    let mut window = Window::new(0x7000, 3, grants()).unwrap();
    let replies = without_memory(|| [window.put_tce(0x8000, 0x4001), window.get_tce(0x8000)]);
    assert_eq!(replies.map(|reply| reply.code()), [0, 0]);
    let accesses = without_memory(|| [window.read(0x8000), window.write(0x8000)]);
    let machine = 0x20_0000_4000;
    let ends = [DeviceOutcome::At { machine }, DeviceOutcome::Denied];
    assert_eq!(accesses.map(|access| access.outcome()), ends);
}

#[cfg(feature = "shared")]
#[test]
fn a_shared_table() {
    use papr::{OpenError, SharedTable, SplitError};
    let mut left = Some(table());
    let open = || {
        let opened = SharedTable::open(left.take().unwrap(), 2);
        opened.map_err(|refused| {
            left = Some(refused.table);
            refused.why
        })
    };
    let mut shared = after_refusals(OpenError::NoMemory, open);
    let mut pass = after_refusals(SplitError::NoMemory, || shared.split());
    let other = shared.split().unwrap();
    assert_eq!(shared.split().unwrap_err(), SplitError::NoShare);
    let access = Access::new(0x5678, 1, Want::Load);
    let replies = without_memory(|| [pass.h_enter(0, 0x40, 0x3001, 0x5012), pass.h_read(0, 0)]);
    assert_eq!(replies.map(|reply| reply.unwrap().code()), [0, 0]);
    let walk = without_memory(|| pass.walk(&access)).unwrap();
    assert_eq!(walk.outcome(), Outcome::At { logical: 0x3678 });
    assert!(without_memory(|| pass.give_up()).is_none());
    let still_shared = without_memory(|| shared.close()).unwrap_err();
    let closed = without_memory(|| {
        let mut shared = still_shared.shared;
        drop(pass);
        let joined = shared.join(other).is_ok();
        (joined, shared.close())
    });
    assert!(closed.0);
    let table = closed.1.unwrap();
    assert!([0x21, 0x22, 0x40]
        .iter()
        .all(|&at| table.entries()[at].valid));
}

#[cfg(feature = "shared")]
#[test]
fn the_last_one_frees_what_is_shared() {
    use papr::SharedTable;
    let (_, asked) = refusing(0..0, || {
        let mut shared = SharedTable::open(table(), 2).unwrap();
        let (first, last) = (shared.split().unwrap(), shared.split().unwrap());
        drop(first);
        drop(shared);
        drop(last);
    });
    assert_eq!(asked.kept, 0);
    let (_, asked) = refusing(0..0, || {
        let mut shared = SharedTable::open(table(), 2).unwrap();
        drop(shared.split().unwrap());
        shared.close().map(|_| ()).unwrap();
    });
    assert_eq!((asked.allocations, asked.kept), (4, 0));
    for number in [1, 2] {
        let open = || SharedTable::open(table(), 2).is_err();
        let (is_refused, asked) = refusing(number..number + 1, open);
        assert_eq!((is_refused, asked.kept), (true, 0));
    }
}

#[cfg(feature = "bytes")]
mod program {
    use super::{each_refused, refusing};
    use papr::program::{check, drill, image, run, run_set, ProgramError, Verdict};
    use papr::Layout;
    use std::fmt::Debug;

    /// The most bytes of an input.
    const LIMIT: usize = 1 << 24;
    /// More than one allocation needs for an answer of one line.
    const A_LITTLE: usize = 1 << 16;

    fn text_of(name: &str) -> String {
        let examples = concat!(env!("CARGO_MANIFEST_DIR"), "/../../../examples/");
        std::fs::read_to_string(format!("{examples}{name}")).unwrap()
    }

    /// Where allocations are refused, each answer is the right one, or that memory is wanted; and some are.
    fn is_right_or_refused<T>(right: T, call: impl FnMut() -> Result<T, ProgramError>)
    where
        T: Debug + PartialEq,
    {
        let right = Ok(right);
        let (refused, last) = each_refused(call);
        assert_eq!(last, right);
        assert!(refused.contains(&Err(ProgramError::Memory)));
        for answer in refused {
            assert!(answer == right || answer == Err(ProgramError::Memory));
        }
    }

    #[test]
    fn the_program() {
        let (trace, replies) = (text_of("first.trace"), text_of("first.replies"));
        is_right_or_refused(replies.clone(), || run(&trace));
        is_right_or_refused(Verdict::Good, || check(&trace, &replies));
        let (trace, old) = (text_of("entries.trace"), text_of("entries.image-old"));
        is_right_or_refused(old, || image(&trace, Layout::Old));
        let name = "two-partitions.set";
        let (set, replies) = (text_of(name), text_of(&format!("{name}-replies")));
        is_right_or_refused(replies, || run_set(&set));
        is_right_or_refused(text_of("drill.summary"), || drill(1, 100_000));
    }

    #[test]
    fn an_input_that_is_too_long_takes_no_memory() {
        let refused = |text: &str| Err(ProgramError::Refused(text.into()));
        let text = "\n".repeat(LIMIT + 1);
        for call in [run, run_set, |it: &str| image(it, Layout::New)] {
            let (answer, asked) = refusing(0..0, || call(&text));
            assert_eq!(answer, refused("papr: line 0: long\n"));
            assert!(asked.largest < A_LITTLE);
        }
        assert_eq!(run(&text[1..]), refused("papr: line 131073: lines\n"));
    }

    #[test]
    fn of_texts_that_are_too_long_no_more_is_joined_than_is_looked_at() {
        let long = Err(ProgramError::Refused("papr: line 0: long\n".into()));
        let text = "#".repeat(2 * LIMIT);
        for (trace, replies) in [("", &*text), (&*text, ""), (&*text, &*text)] {
            let (answer, asked) = refusing(0..0, || check(trace, replies));
            assert_eq!(answer, long);
            assert!(asked.largest < LIMIT + A_LITTLE);
        }
    }
}
