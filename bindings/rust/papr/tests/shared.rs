//! The table that threads share.

mod common;
#[path = "common/history.rs"]
mod history;

use common::grants;
use history::{faults, made, Call, Made, Source, GROUP};
use papr::{
    flags, Access, Answer, Busy, Entry, Error, Hold, JoinError, OpenError, Outcome, Pass, Reply,
    SharedTable, SplitError, Table, Want,
};
use std::sync::atomic::{AtomicBool, Ordering};
use std::thread;
use std::time::{Duration, Instant};

/// The entry that two threads meet at.
const ENTRY: u64 = 0x22;
const THREADS: u64 = 4;
const CALLS: usize = 20_000;
/// How long until threads have met.
const PATIENCE: Duration = Duration::from_secs(60);

// A pass may move to another thread, and so may a shared table.
const _: () = is_send::<Pass>();
const _: () = is_send_and_sync::<SharedTable>();
const fn is_send<T: Send>() {}
const fn is_send_and_sync<T: Send + Sync>() {}

/// Threads can't have one pass at once: this would be ambiguous if a pass were Sync.
trait NotSync<Which> {
    fn is_not() {}
}
impl<T> NotSync<()> for T {}
impl<T: Sync> NotSync<u8> for T {}
const _: fn() = <Pass as NotSync<_>>::is_not;

/// A table that has the page at 0x5000 of segment 1 in ENTRY, after that of another page.
fn table() -> Table {
    let mut table = Table::new(18, grants()).unwrap();
    table.h_enter(flags::EXACT, 0x21, 0x2001, 0x4012);
    table.h_enter(flags::EXACT, ENTRY, 0x1001, 0x3012);
    table
}

fn load() -> Access {
    Access::new(0x5678, 1, Want::Load)
}

/// The valid entries.
fn valid(table: &Table) -> Vec<usize> {
    let is_valid = |&index: &usize| table.entries()[index].valid;
    (0..table.entries().len()).filter(is_valid).collect()
}

#[test]
fn closing_gives_the_table_back() {
    let mut shared = SharedTable::open(table(), 2).unwrap();
    assert_eq!((shared.order(), shared.grants()), (18, &grants()));
    let mut pass = shared.split().unwrap();
    let reply = pass.h_enter(0, 0x20, 0x3001, 0x5012).unwrap();
    assert_eq!(reply.to_string(), "0 0x20 | 0x20.0.0.entered");
    assert_eq!(pass.h_read(0, ENTRY).unwrap().words(), [0x1001, 0x3012]);
    shared.join(pass).unwrap();
    let table = shared.close().unwrap();
    assert_eq!(valid(&table), [0x20, 0x21, 0x22]);
    assert_eq!(table.entries()[0x20].stamp, 1);
    assert_eq!((table.order(), table.grants()), (18, &grants()));
}

#[test]
fn so_many_passes_and_no_more() {
    for passes in [0, 64, u32::MAX] {
        let refused = SharedTable::open(table(), passes).unwrap_err();
        assert_eq!(refused.why, OpenError::Passes);
        assert_eq!(valid(&refused.table), [0x21, 0x22]);
    }
    for most in [1, 63] {
        let mut shared = SharedTable::open(table(), most).unwrap();
        let mut passes: Vec<Pass> = (0..most).map(|_| shared.split().unwrap()).collect();
        assert_eq!(shared.split().unwrap_err(), SplitError::NoShare);
        drop(passes.pop());
        drop(shared.split().unwrap());
        let last = shared.split().unwrap();
        assert_eq!(shared.split().unwrap_err(), SplitError::NoShare);
        shared.join(last).unwrap();
        drop(passes);
        assert_eq!(valid(&shared.close().unwrap()), [0x21, 0x22]);
    }
}

#[test]
fn a_table_is_not_closed_while_passes_are_out() {
    let mut shared = SharedTable::open(table(), 2).unwrap();
    let (first, mut second) = (shared.split().unwrap(), shared.split().unwrap());
    let shared = shared.close().unwrap_err().shared;
    drop(first);
    let refused = shared.close().unwrap_err();
    assert_eq!(refused.to_string(), "passes of the table are out");
    let shared = refused.shared;
    assert_eq!(second.h_remove(0, 0x21, 0).unwrap().code(), 0);
    drop(second);
    assert_eq!(valid(&shared.close().unwrap()), [0x22]);
}

#[test]
fn a_pass_is_joined_to_its_own_table() {
    let mut shared = SharedTable::open(table(), 1).unwrap();
    let mut other = SharedTable::open(table(), 1).unwrap();
    let refused = other.join(shared.split().unwrap()).unwrap_err();
    assert_eq!(refused.why, JoinError::OtherTable);
    shared.join(refused.pass).unwrap();
    shared.close().unwrap();
    other.close().unwrap();
}

#[test]
fn passes_may_outlive_their_shared_table() {
    let mut shared = SharedTable::open(table(), 2).unwrap();
    let (first, mut second) = (shared.split().unwrap(), shared.split().unwrap());
    drop(shared);
    drop(first);
    let moved = thread::spawn(move || second.h_remove(0, 0x21, 0).unwrap().code());
    assert_eq!(moved.join().unwrap(), 0);
}

#[test]
fn a_pass_and_a_table_answer_alike() {
    let mut source = Source(3);
    for order in [18, 19] {
        let empty = || Table::new(order, grants()).unwrap();
        let mut serial = empty();
        let mut shared = SharedTable::open(empty(), 1).unwrap();
        let mut pass = shared.split().unwrap();
        for _ in 0..CALLS {
            let call = Call::draw(&mut source);
            assert_eq!(
                call.on_pass(&mut pass),
                call.on_table(&mut serial),
                "{call:?}"
            );
        }
        drop(pass);
        assert_eq!(shared.close().unwrap().entries(), serial.entries());
    }
}

#[test]
fn by_number() {
    let mut shared = SharedTable::open(table(), 1).unwrap();
    let mut pass = shared.split().unwrap();
    let args = [flags::EXACT, 0x45, 0x1001, 0x7012, 4, 5, 6, 7];
    assert_eq!(pass.hcall(0x08, args).unwrap().result(), Ok(&[0x45][..]));
    let reply = pass.hcall(0x0C, [0, 0x45, 0, 0, 0, 0, 0, 0]).unwrap();
    assert_eq!(reply.result(), Ok(&[0x1001, 0x7012][..]));
    let reply = pass.hcall(0x20, [1, 2, 3, 0, 0, 0, 0, 0]).unwrap();
    assert_eq!(reply.result(), Err(Error::Function));
}

#[test]
fn a_pass_that_has_nothing_to_go_on_with() {
    let mut shared = SharedTable::open(table(), 1).unwrap();
    let mut pass = shared.split().unwrap();
    assert_has_nothing(&mut pass);
    assert_eq!(pass.h_read(0, ENTRY).unwrap().words(), [0x1001, 0x3012]);
    let walk = pass.finish(|it| it.walk(&load()));
    assert_eq!(walk.outcome(), Outcome::At { logical: 0x3678 });
}

/// The pass has no call to go on with.
fn assert_has_nothing(pass: &mut Pass) {
    assert_eq!(pass.again().unwrap().result(), Err(Error::Parameter));
    assert_eq!(pass.walk_again().unwrap().outcome(), Outcome::Parameter);
    assert_eq!((pass.busy(), pass.so_far()), (None, None));
    assert_eq!(pass.give_up(), None);
}

/// Ends a thread, also if a test fails.
struct Over<'a>(&'a AtomicBool);

impl Drop for Over<'_> {
    fn drop(&mut self) {
        self.0.store(true, Ordering::Relaxed);
    }
}

/// Makes this test on a pass while another thread protects ENTRY over and over.
fn at_a_busy_entry(test: impl FnOnce(&mut SharedTable, Pass)) {
    let mut shared = SharedTable::open(table(), 2).unwrap();
    let (pass, mut other) = (shared.split().unwrap(), shared.split().unwrap());
    let is_over = AtomicBool::new(false);
    thread::scope(|scope| {
        let over = Over(&is_over);
        scope.spawn(|| {
            while !is_over.load(Ordering::Relaxed) {
                other.finish(|it| it.h_protect(2, ENTRY, 0));
            }
        });
        test(&mut shared, pass);
        drop(over);
    });
    drop(other);
    assert!(shared.close().unwrap().entries()[ENTRY as usize].stamp > 1);
}

/// Makes a call until it meets the other thread.
fn busy<Answer>(pass: &mut Pass, mut call: impl FnMut(&mut Pass) -> Result<Answer, Busy>) -> Busy {
    let begun = Instant::now();
    loop {
        if let Err(busy) = call(pass) {
            return busy;
        }
        assert!(begun.elapsed() < PATIENCE, "no call was busy");
    }
}

#[test]
fn a_call_is_gone_on_with() {
    at_a_busy_entry(|_, mut pass| {
        let busy = busy(&mut pass, |it| it.h_clear_ref(0, ENTRY));
        assert_eq!((busy.hold, busy.entry, busy.done), (Hold::Held, 0x22, 0));
        assert_eq!(busy.looked, busy.found);
        assert_eq!(
            busy.to_string(),
            "entry 0x22 is busy, after 0 operations: Held"
        );
        assert_eq!(pass.so_far().unwrap().receipts().len(), 0);
        let reply = pass.finish(Pass::again);
        let receipt = reply.receipts().next().unwrap();
        assert_eq!((receipt.entry, receipt.answer), (0x22, Answer::Was));
        assert_eq!(reply.result(), Ok(&[receipt.dword1][..]));
        assert!(reply.is_stale());
        assert_has_nothing(&mut pass);
    });
}

#[test]
fn until_it_has_ended_all_else_is_refused() {
    at_a_busy_entry(|shared, mut pass| {
        busy(&mut pass, |it| it.h_read(flags::READ_4, 0x20));
        let so_far = *pass.so_far().unwrap();
        assert_eq!(
            pass.h_read(0, 0x40).unwrap().result(),
            Err(Error::Parameter)
        );
        assert_eq!(pass.walk(&load()).unwrap().outcome(), Outcome::Parameter);
        assert_eq!(pass.walk_again().unwrap().outcome(), Outcome::Parameter);
        let refused = shared.join(pass).unwrap_err();
        assert_eq!(refused.why, JoinError::Busy);
        pass = refused.pass;
        assert_eq!(pass.so_far(), Some(&so_far));
        assert_eq!(pass.finish(Pass::again).words().len(), 8);
        shared.join(pass).unwrap();
    });
}

#[test]
fn what_it_has_made_is_not_made_again() {
    at_a_busy_entry(|_, mut pass| {
        let busy = busy(&mut pass, |it| it.h_read(flags::READ_4, 0x20));
        assert_eq!((busy.hold, busy.entry, busy.done), (Hold::Held, 0x22, 2));
        let so_far = *pass.so_far().unwrap();
        assert_eq!(
            (so_far.code(), so_far.words()),
            (1, &[0, 0, 0x2001, 0x4012][..])
        );
        let reply = pass.finish(Pass::again);
        assert_eq!(reply.words()[..4], *so_far.words());
        assert!(reply.receipts().take(2).eq(so_far.receipts()));
        assert!(reply.receipts().map(|it| it.entry).eq(0x20..0x24));
    });
}

#[test]
fn a_walk_is_gone_on_with() {
    at_a_busy_entry(|_, mut pass| {
        let busy = busy(&mut pass, |it| it.walk(&load()));
        assert_eq!(
            (busy.hold, busy.entry, busy.done),
            (Hold::Changing, 0x22, 2)
        );
        assert_eq!(pass.so_far().unwrap().receipts().len(), 2);
        assert_eq!(pass.again().unwrap().result(), Err(Error::Parameter));
        let walk = pass.finish(Pass::walk_again);
        assert_eq!(walk.outcome(), Outcome::At { logical: 0x3678 });
        assert_eq!(walk.receipts().len(), 3);
    });
}

#[test]
fn a_call_is_given_up() {
    at_a_busy_entry(|shared, mut pass| {
        busy(&mut pass, |it| it.h_read(flags::READ_4, 0x20));
        let made: Reply = pass.give_up().unwrap();
        assert_eq!(made.words(), [0, 0, 0x2001, 0x4012]);
        assert_has_nothing(&mut pass);
        assert_eq!(pass.h_read(0, 0x21).unwrap().words(), [0x2001, 0x4012]);
        busy(&mut pass, |it| it.h_read(0, ENTRY));
        drop(pass);
        let mut pass = shared.split().unwrap();
        assert_has_nothing(&mut pass);
    });
}

/// What one thread makes by random calls on its pass.
fn work(mut pass: Pass, seed: u64) -> Vec<Made> {
    let mut source = Source(seed);
    let calls = (0..CALLS).flat_map(|_| {
        let call = Call::draw(&mut source);
        made(call, &call.on_pass(&mut pass))
    });
    calls.collect()
}

/// Threads that call one table at once: its entries before and after, and what each thread made.
fn hammer() -> (Vec<Entry>, Vec<Entry>, Vec<Vec<Made>>) {
    let mut table = Table::new(18, grants()).unwrap();
    let mut source = Source(1);
    for _ in 0..64 {
        let _answer = Call::draw(&mut source).on_table(&mut table);
    }
    let opening = table.entries().to_vec();
    let mut shared = SharedTable::open(table, THREADS as u32).unwrap();
    let all = thread::scope(|scope| {
        let passes = (1..=THREADS).map(|seed| (seed, shared.split().unwrap()));
        let threads: Vec<_> = passes
            .map(|(seed, pass)| scope.spawn(move || work(pass, seed)))
            .collect();
        threads.into_iter().map(|it| it.join().unwrap()).collect()
    });
    (opening, shared.close().unwrap().entries().to_vec(), all)
}

#[test]
fn each_entry_has_one_legal_history() {
    let (opening, closing, all) = hammer();
    for of_thread in &all {
        assert!(of_thread.len() >= CALLS);
        let mut seen = vec![0; opening.len()];
        for it in of_thread {
            let stamp = &mut seen[it.receipt.entry as usize];
            assert!(it.receipt.stamp >= *stamp, "a stamp fell: {}", it.receipt);
            *stamp = it.receipt.stamp;
        }
    }
    let all = all.concat();
    assert_eq!(faults(&opening, &closing, all.clone()), [""; 0]);
    let changes: Vec<usize> = (0..all.len()).filter(|&at| all[at].is_change()).collect();
    assert!(changes.len() > 10_000);
    let in_group = |&at: &usize| u64::from(all[at].receipt.entry / 8) == GROUP;
    assert!(changes.iter().all(in_group));
    // A receipt that is left out is missed: the first, the middle one and the last.
    for at in [
        changes[0],
        changes[changes.len() / 2],
        changes[changes.len() - 1],
    ] {
        let mut left = all.clone();
        let change = left.remove(at);
        let found = faults(&opening, &closing, left);
        assert_eq!(found.len(), 1, "{found:?}");
        assert!(found[0].starts_with(&format!("entry {:#x}: ", change.receipt.entry)));
    }
}
