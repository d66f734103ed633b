//! Want of the system's memory, in a process of its own.
#![cfg(target_os = "linux")]

use papr::{Error, Grants, Table, TableError};
use std::ffi::c_int;
use std::sync::Mutex;

/// The limit of a process's addresses, in bytes.
const RLIMIT_AS: c_int = 9;
const A_PAGE: u64 = 4_096;
/// How much more than it has a test lets the process have.
const MORE: u64 = 4 << 20;
/// Each takes 19 MB. The heap of a thread has up to 64 MB more than the limit.
#[cfg(feature = "shared")]
const TABLES: usize = 12;

/// The limit is that of the process, so one test at a time sets it.
static ALONE: Mutex<()> = Mutex::new(());

#[repr(C)]
struct Limit {
    current: u64,
    most: u64,
}

extern "C" {
    fn getrlimit(which: c_int, limit: *mut Limit) -> c_int;
    fn setrlimit(which: c_int, limit: *const Limit) -> c_int;
}

/// Lets the process have so much memory, and says how much it was before.
fn limit(current: u64) -> u64 {
    let mut limit = Limit {
        current: 0,
        most: 0,
    };
    // SAFETY: the struct is that of the C library.
    unsafe {
        assert_eq!(getrlimit(RLIMIT_AS, &mut limit), 0);
        let before = limit.current;
        limit.current = current;
        assert_eq!(setrlimit(RLIMIT_AS, &limit), 0);
        before
    }
}

/// What a call answers while the process has little more memory than before.
fn with_little_memory<T>(call: impl FnOnce() -> T) -> T {
    let statm = std::fs::read_to_string("/proc/self/statm").unwrap();
    let pages: u64 = statm.split(' ').next().unwrap().parse().unwrap();
    let before = limit(pages * A_PAGE + MORE);
    let answer = call();
    limit(before);
    answer
}

#[test]
fn there_is_no_memory_for_the_largest_table() {
    let _alone = ALONE.lock().unwrap();
    let mut table = Table::new(18, Grants::default()).unwrap();
    let (made, prepared) = with_little_memory(|| {
        let made = Table::new(34, Grants::default());
        (made.map(|_| ()), table.h_resize_hpt_prepare(0, 34, 34))
    });
    assert_eq!(made, Err(TableError::NoMemory));
    assert_eq!(prepared, Err(Error::NoMem));
    assert_eq!(table.entries().len(), 1 << 14);
}

#[cfg(feature = "bytes")]
#[test]
fn there_is_no_memory_for_the_replies_to_the_longest_trace() {
    use papr::program::{run, ProgramError};
    let _alone = ALONE.lock().unwrap();
    let trace = "\n".repeat(1 << 24);
    let ran = with_little_memory(|| run(&trace));
    // The heap of the thread may have just enough.
    let refused = ProgramError::Refused("papr: line 131073: lines\n".into());
    assert!([ProgramError::Memory, refused].contains(&ran.unwrap_err()));
}

#[cfg(feature = "shared")]
#[test]
fn want_of_memory_leaves_the_table_as_it_was() {
    use papr::{OpenError, SharedTable};
    let _alone = ALONE.lock().unwrap();
    let tables: Vec<Table> = (0..TABLES)
        .map(|_| Table::new(22, Grants::default()).unwrap())
        .collect();
    let mut opened = Vec::with_capacity(TABLES);
    with_little_memory(|| {
        for table in tables {
            opened.push(SharedTable::open(table, 1));
        }
    });
    let mut refused: Vec<_> = opened.into_iter().filter_map(Result::err).collect();
    let refused = refused.pop().expect("there is no memory for all of them");
    assert_eq!(refused.why, OpenError::NoMemory);
    assert_eq!(refused.to_string(), "there is no memory for a shared table");
    assert_eq!(refused.table.entries().len(), 1 << 18);
    let mut shared = SharedTable::open(refused.table, 1).unwrap();
    assert_eq!(
        shared.split().unwrap().h_read(0, 0).unwrap().words(),
        [0, 0]
    );
}
