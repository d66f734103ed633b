//! Every call with arguments that all differ, and answers whose fields all differ.

mod common;

use common::{given, grants};
use papr::{
    decode, flags, library_version, protection_rights, Access, Answer, Collision, CommitRefused,
    Entry, Error, Grant, GrantRefusal, Grants, Layout, NoPage, Outcome, Prepared, Range, Receipt,
    Table, TableError, TakeError, Taken, TransferRefusal, Want,
};

/// Doubleword 0 of a page of a segment of 1 TB.
const OF_1TB: u64 = 0x4000_0000_0100_0001;
/// Two entries in the older layout.
const OLD: [u8; 32] = [
    0, 0, 0, 0, 0, 0, 0x10, 1, 0, 0, 0, 0, 0, 0, 0x31, 0x92, 0x40, 0, 0, 0, 1, 0, 0, 1, 0, 0, 0, 0,
    0, 0, 0x60, 0x10,
];
const LOAD: Access = Access {
    ea: 0x5678,
    vsid: 1,
    want: Want::Load,
    shift: 12,
    one_tb: false,
    key: false,
    no_execute: false,
    amr: 0,
    iamr: 0,
};

fn empty_table(order: u8) -> Table {
    Table::new(order, grants()).unwrap()
}

/// A table that has the page at 0x5000 of segment 1 in entry 0x22, after that of another page.
fn table() -> Table {
    let mut table = empty_table(18);
    for (ptex, pteh, ptel) in [(0x21, 0x2001, 0x4012), (0x22, 0x1001, 0x3012)] {
        let reply = table.h_enter(flags::EXACT, ptex, pteh, ptel);
        assert_eq!(reply.result(), Ok(&[ptex][..]));
    }
    table
}

fn entry(dword0: u64, dword1: u64, stamp: u32, referenced: bool, changed: bool) -> Entry {
    Entry {
        dword0,
        dword1,
        stamp,
        valid: true,
        referenced,
        changed,
        marked: true,
    }
}

/// A receipt; R counts 2 in its bits, and C counts 1.
fn receipt(entry: u32, stamp: u32, bits: u8, answer: Answer, words: (u64, u64)) -> Receipt {
    Receipt {
        entry,
        stamp,
        referenced: bits & 2 != 0,
        changed: bits & 1 != 0,
        answer,
        dword0: words.0,
        dword1: words.1,
    }
}

/// The valid entries with their indices.
fn valid(table: &Table) -> Vec<(usize, Entry)> {
    let all = table.entries().iter().copied().enumerate();
    all.filter(|(_, entry)| entry.valid).collect()
}

#[test]
fn the_version() {
    assert_eq!(library_version(), (0, 1, 0));
}

#[test]
fn orders() {
    assert_eq!(empty_table(22).entries().len(), 1 << 18);
    assert_eq!(empty_table(24).entries().len(), 1 << 20);
    for order in [17, 35] {
        let refused = Table::new(order, grants()).unwrap_err();
        assert_eq!(refused, TableError::Order(order));
    }
}

#[test]
fn a_list_of_grants() {
    assert_eq!(grants().as_slice(), [given()[1], given()[0]]);
    let io = |machine, is_io| Some(Range { machine, is_io });
    assert_eq!(
        grants().machine_of(0x2345, 0x100),
        io(0x20_0000_2345, false)
    );
    assert_eq!(
        grants().machine_of(0x4000_1000, 0x2000),
        io(0x50_0000_1000, true)
    );
    assert_eq!(grants().machine_of(0x4000_1000, 0x2001), None);
    let mut three = given().to_vec();
    three.push(Grant {
        logical: 0x8000_0000,
        machine: 0x60_0000_0000,
        ..Grant::default()
    });
    let refused = Grants::new(&three).unwrap_err();
    assert_eq!((refused.index, refused.refusal), (2, GrantRefusal::Empty));
    let refused = Grants::beside(0, 17, &[]).unwrap_err();
    assert_eq!(refused.refusal, GrantRefusal::PoolOrder);
}

#[test]
fn enter() {
    let mut table = table();
    let reply = table.h_enter(flags::EXACT, 0x22, 0x1001, 0x3012);
    assert_eq!(reply.result(), Err(Error::PtegFull));
    let taken = receipt(0x22, 1, 0, Answer::Taken, (0x1001, 0x3012));
    assert_eq!(reply.receipts().collect::<Vec<_>>(), [taken]);
    assert_eq!(
        (reply.code(), reply.words(), reply.is_stale()),
        (-6, &[][..], false)
    );
    assert_eq!(reply.to_string(), "-6 | 0x22.1.0.taken");
    let reply = table.h_enter(0, 0x23, 0x1001, 0x3012);
    assert_eq!(reply.to_string(), "0 0x20 | 0x20.0.0.entered");
    assert_eq!(
        table.entries()[0x22],
        entry(0x1001, 0x3012, 1, false, false)
    );
}

#[test]
fn entries_that_changed() {
    let mut table = table();
    let taken = |indexes: &[u32], next| {
        let indexes = indexes.to_vec();
        Ok(Taken { indexes, next })
    };
    assert_eq!(table.take_changed(0, 1), taken(&[0x21], 0x22));
    assert_eq!(table.take_changed(0x22, 9), taken(&[0x22], 1 << 14));
    table.h_read(0, 0x21);
    assert_eq!(table.take_changed(0, usize::MAX), taken(&[], 1 << 14));
    table.walk(&LOAD);
    assert_eq!(table.take_changed(0, 9), taken(&[0x22], 1 << 14));
    let past = (1 << 14) + 1;
    assert_eq!(table.take_changed(past, 9), Err(TakeError::First(past)));
}

#[test]
fn read_and_clear() {
    let mut table = table();
    table.walk(&Access {
        want: Want::Store,
        ..LOAD
    });
    let reply = table.h_read(flags::READ_4, 0x23);
    assert_eq!(reply.words(), [0, 0, 0x2001, 0x4012, 0x1001, 0x3192, 0, 0]);
    let read = receipt(0x22, 1, 3, Answer::Read, (0x1001, 0x3192));
    assert_eq!(reply.receipts().nth(2), Some(read));
    let reply = table.h_clear_ref(5, 0x22);
    assert_eq!((reply.words(), reply.is_stale()), (&[0x3192][..], true));
    assert_eq!(table.entries()[0x22], entry(0x1001, 0x3012, 2, false, true));
    let reply = table.h_clear_mod(5, 0x22);
    assert_eq!((reply.words(), reply.is_stale()), (&[0x3092][..], true));
    let was = receipt(0x22, 2, 1, Answer::Was, (0x1001, 0x3092));
    assert_eq!(reply.receipts().next_back(), Some(was));
}

#[test]
fn protect_and_remove() {
    let mut table = table();
    let reply = table.h_protect(flags::AVPN | 3, 0x22, 0x2000);
    assert_eq!(reply.result(), Err(Error::NotFound));
    let reply = table.h_protect(flags::AVPN | 3, 0x22, 0x1000);
    assert_eq!((reply.result(), reply.is_stale()), (Ok(&[][..]), true));
    assert_eq!(
        table.entries()[0x22],
        entry(0x1001, 0x3013, 2, false, false)
    );
    let reply = table.h_remove(flags::AVPN, 0x22, 0x1000);
    assert_eq!(reply.result(), Ok(&[0x1001, 0x3013][..]));
    let removed = receipt(0x22, 2, 0, Answer::Removed, (0x1001, 0x3013));
    assert_eq!(reply.receipts().collect::<Vec<_>>(), [removed]);
    assert_eq!(
        valid(&table),
        [(0x21, entry(0x2001, 0x4012, 1, false, false))]
    );
    assert_eq!(
        table.h_remove(0, 1 << 14, 0).result(),
        Err(Error::Parameter)
    );
}

#[test]
fn bulk_remove() {
    let pairs = [
        0x4200_0000_0000_0021,
        0x2000,
        0xC000_0000_0000_0000,
        7,
        0,
        0,
        0,
        0,
    ];
    let reply = table().h_bulk_remove(&pairs);
    assert_eq!(reply.words()[..2], [0x8200_0000_0000_0021, 0x2000]);
    assert_eq!(reply.words()[2..], pairs[2..]);
}

#[test]
fn by_number() {
    let mut table = table();
    let reply = table.hcall(0x08, [flags::EXACT, 0x45, 0x1001, 0x7012, 4, 5, 6, 7]);
    assert_eq!(reply.result(), Ok(&[0x45][..]));
    let reply = table.hcall(0x0C, [0, 0x45, 0, 0, 0, 0, 0, 0]);
    assert_eq!(reply.result(), Ok(&[0x1001, 0x7012][..]));
    let reply = table.hcall(0x20, [1, 2, 3, 0, 0, 0, 0, 0]);
    assert_eq!((reply.code(), reply.result()), (-2, Err(Error::Function)));
}

#[test]
fn walks() {
    let mut table = table();
    let walk = table.walk(&LOAD);
    assert_eq!(walk.outcome(), Outcome::At { logical: 0x3678 });
    let answers: Vec<_> = walk.receipts().map(|it| it.answer).collect();
    assert_eq!(answers, [Answer::NoMatch, Answer::NoMatch, Answer::At]);
    let found = walk.translation().unwrap();
    assert_eq!(
        (found.entry, found.dword0, found.dword1),
        (0x22, 0x1001, 0x3112)
    );
    assert_eq!((found.base_shift, found.actual_shift), (12, 12));
    assert!(found.rights.read() && found.rights.execute() && !found.rights.write());
    assert!(found.causes.is_empty());
    let store = Access {
        want: Want::Store,
        ..LOAD
    };
    let found = table.walk(&store).translation().unwrap();
    assert!(found.rights.write());
    assert_eq!(found.dword1, 0x3192);
}

#[test]
fn each_field_of_an_access_counts() {
    let mut table = table();
    let at = Outcome::At { logical: 0x3678 };
    let (amr, iamr) = (1 << 62, 1 << 62);
    let fetch = Access {
        want: Want::Fetch,
        ..LOAD
    };
    let ends = [
        (Access { amr, ..LOAD }, Outcome::Amr),
        (Access { iamr, ..LOAD }, at),
        (Access { iamr, ..fetch }, Outcome::Iamr),
        (
            Access {
                no_execute: true,
                ..fetch
            },
            Outcome::Denied,
        ),
        (Access { key: true, ..LOAD }, at),
        (Access { vsid: 2, ..LOAD }, Outcome::NoPage),
        (
            Access {
                one_tb: true,
                ..LOAD
            },
            Outcome::NoPage,
        ),
        (Access { shift: 13, ..LOAD }, Outcome::Parameter),
    ];
    for (access, end) in ends {
        assert_eq!(table.walk(&access).outcome(), end, "{access:?}");
        let is_found = !matches!(end, Outcome::NoPage | Outcome::Parameter);
        assert_eq!(table.walk(&access).translation().is_some(), is_found);
    }
}

#[test]
fn causes() {
    let mut table = table();
    table.h_enter(flags::EXACT, 0x33, 0x3005, 0x1000_0000_0001_7212);
    let access = Access {
        vsid: 3,
        want: Want::Fetch,
        no_execute: true,
        amr: 2 << 44,
        iamr: 1 << 44,
        ..LOAD
    };
    let found = table.walk(&access).translation().unwrap();
    let causes = found.causes;
    assert!(causes.no_execute() && causes.iamr() && !causes.amr() && !causes.protection());
    assert_eq!((found.base_shift, found.actual_shift), (12, 16));
    table.h_enter(0, 8, OF_1TB, 0x6010);
    let access = Access {
        one_tb: true,
        key: true,
        ..Access::new(0x678, 1, Want::Load)
    };
    let probe = table.probe(&access);
    assert_eq!(probe.outcome(), Outcome::Denied);
    assert!(probe.translation().unwrap().causes.protection());
}

#[test]
fn a_probe_changes_nothing() {
    let table = table();
    let probe = table.probe(&LOAD);
    assert_eq!(probe.outcome(), Outcome::At { logical: 0x3678 });
    assert_eq!(probe.receipts().len(), 0);
    assert!(!probe.translation().unwrap().rights.read());
    assert_eq!(
        table.entries()[0x22],
        entry(0x1001, 0x3012, 1, false, false)
    );
}

#[test]
fn entries_decoded() {
    let page = decode(18, 0x33, 0x3005, 0x1000_0000_0001_7292).unwrap();
    assert_eq!((page.vsid, page.page, page.real), (3, 5, 0x1_0000));
    assert_eq!((page.base_shift, page.actual_shift), (12, 16));
    assert_eq!((page.key, page.protection, page.wimg), (9, 2, 2));
    assert!(page.changed && !page.referenced && !page.bolted && !page.one_tb);
    let page = decode(18, 0xE0, 0x4000_0000_1524_0015, 0x8000_0004_0000_3112).unwrap();
    assert_eq!((page.base_shift, page.protection), (34, 6));
    assert!(page.one_tb && page.bolted && page.referenced && !page.secondary);
    let page = decode(18, 0x3FD8, 0x1003, 0x3016).unwrap();
    assert!(page.secondary && page.no_execute);
    let reasons = [
        (1 << 14, 0x1001, 0x3012, NoPage::NoIndex),
        (0x20, 0x1000, 0x3012, NoPage::Empty),
        (0x20, 0x1005, 0x2010, NoPage::NoSize),
        (0x20, 0x8000_0000_0000_1001, 0x3012, NoPage::NoSegment),
        (0x400, 0x1015, 0x1_1012, NoPage::OtherGroup),
    ];
    for (ptex, dword0, dword1, reason) in reasons {
        assert_eq!(decode(18, ptex, dword0, dword1), Err(reason));
    }
    let mut table = table();
    table.walk(&LOAD);
    let page = table.page(0x22).unwrap();
    assert!(page.referenced && !page.changed);
    assert_eq!(table.page(0), Err(NoPage::Empty));
    assert_eq!(table.page(1 << 14), Err(NoPage::NoIndex));
}

#[test]
fn rights_of_protection() {
    let rights = protection_rights(1, true);
    assert!(rights.read() && !rights.write() && !rights.execute());
    assert!(protection_rights(2, true).write());
    assert!(!protection_rights(6, true).read());
}

#[test]
fn a_rehash() {
    let (mut from, mut into) = (empty_table(20), empty_table(18));
    from.h_enter(flags::EXACT, 0x4023, 0x1091, 0x3012);
    assert_eq!(from.rehash_into(&mut into), Ok(()));
    assert_eq!(
        valid(&into),
        [(0x23, entry(0x1091, 0x3012, 0, false, false))]
    );
    from.h_enter(flags::EXACT, 0x8023, 0x1111, 0x4012);
    let collision = Collision {
        first: 0x4023,
        second: 0x8023,
        target: 0x23,
    };
    assert_eq!(from.rehash_into(&mut into), Err(collision));
    assert_eq!(valid(&into), []);
}

#[test]
fn a_resize() {
    let mut table = empty_table(18);
    table.h_enter(flags::EXACT, 0x23, 0x1091, 0x3012);
    let refused = |error| Err(CommitRefused::Error(error));
    assert_eq!(
        table.h_resize_hpt_prepare(0, 19, 22),
        Ok(Prepared::LongBusy)
    );
    assert_eq!(table.h_resize_hpt_commit(0, 19), refused(Error::Busy));
    assert_eq!(table.h_resize_hpt_commit(0, 20), refused(Error::Closed));
    assert_eq!(table.h_resize_hpt_commit(1, 19), refused(Error::Parameter));
    assert_eq!(table.h_resize_hpt_prepare(0, 21, 20), Err(Error::Resource));
    assert_eq!(table.h_resize_hpt_prepare(1, 20, 22), Err(Error::Parameter));
    // No memory is taken for a table that isn't allowed: one of 24 GB.
    assert_eq!(table.h_resize_hpt_prepare(0, 34, 22), Err(Error::Resource));
    assert_eq!(table.h_resize_hpt_prepare(1, 34, 34), Err(Error::Parameter));
    assert_eq!(table.h_resize_hpt_prepare(0, 19, 22), Ok(Prepared::Ready));
    assert_eq!(table.h_resize_hpt_commit(0, 19), Ok(()));
    assert_eq!((table.order(), table.entries().len()), (19, 1 << 15));
    assert_eq!(
        valid(&table),
        [(0x4023, entry(0x1091, 0x3012, 0, false, false))]
    );
    assert_eq!(table.h_resize_hpt_commit(0, 19), refused(Error::Closed));
}

#[test]
fn what_is_pending_is_dropped() {
    let mut table = empty_table(18);
    let refused = Err(CommitRefused::Error(Error::Closed));
    table.h_resize_hpt_prepare(0, 19, 22).unwrap();
    assert_eq!(table.h_resize_hpt_prepare(0, 0, 22), Ok(Prepared::Ready));
    assert_eq!(table.h_resize_hpt_commit(0, 19), refused);
    table.h_resize_hpt_prepare(0, 19, 22).unwrap();
    assert_eq!(table.h_resize_hpt_prepare(0, 18, 22), Ok(Prepared::Ready));
    assert_eq!(table.h_resize_hpt_commit(0, 19), refused);
    assert_eq!(table.h_resize_hpt_commit(0, 18), Ok(()));
}

#[test]
fn transfers() {
    let mut table = empty_table(18);
    assert_eq!(table.import_entries(Layout::Old, 0x22, &OLD), Ok(()));
    assert_eq!(table.entries()[0x22], entry(0x1001, 0x3012, 0, true, true));
    assert_eq!(
        table.entries()[0x23],
        entry(OF_1TB, 0x6010, 0, false, false)
    );
    assert_eq!(
        table.export_entries(Layout::Old, 0x22..0x24),
        Ok(OLD.to_vec())
    );
    let new = table.export_entries(Layout::New, 0x22..0x24).unwrap();
    assert_eq!((&new[..16], new[16], new[24]), (&OLD[..16], 0, 4));
    assert_eq!(table.import_entries(Layout::New, 0x30, &new), Ok(()));
    assert_eq!(table.entries()[0x31], table.entries()[0x23]);
    let refused = table.import_entries(Layout::New, 0x40, &OLD).unwrap_err();
    assert_eq!(
        (refused.index, refused.refusal),
        (0x41, TransferRefusal::Unheld)
    );
    let mut other = OLD;
    other[31] = 0x38;
    let refused = table.import_entries(Layout::Old, 0x40, &other).unwrap_err();
    assert_eq!(refused.refusal, TransferRefusal::Unentered);
    for (first, bytes) in [(0x40, &OLD[..31]), (1 << 14, &OLD), (usize::MAX, &OLD)] {
        let refused = table.import_entries(Layout::Old, first, bytes).unwrap_err();
        assert_eq!(refused.refusal, TransferRefusal::Arguments);
    }
    for range in [0..(1 << 14) + 1, usize::MAX - 1..usize::MAX] {
        assert!(table.export_entries(Layout::Old, range).is_err());
    }
    assert!(!table.entries()[0x40].valid);
}
