//! What threads did to a shared table, by their receipts, and whether it is one legal history of each
//! entry; and random calls on one group of eight entries.

use papr::{flags, Access, Answer, Entry, Pass, Receipt, Reply, Table, Walk, Want};

/// The group, and how many pages it is for, of segments 1 to 8.
pub const GROUP: u64 = 4;
const PAGES: u64 = 8;
const R: u64 = 0x100;
const C: u64 = 0x80;
const TAG: u64 = !0x7F;
const PROTECTION: u64 = 7;

/// Random numbers. The seed isn't 0.
pub struct Source(pub u64);

impl Source {
    /// A number below another.
    pub fn below(&mut self, end: u64) -> u64 {
        self.0 ^= self.0 << 13;
        self.0 ^= self.0 >> 7;
        self.0 ^= self.0 << 17;
        (self.0.wrapping_mul(0x2545_F491_4F6C_DD1D) >> 32) % end
    }

    /// One of these.
    fn pick(&mut self, of: &[u64]) -> u64 {
        of[self.below(of.len() as u64) as usize]
    }
}

/// A call with its arguments.
#[derive(Clone, Copy, Debug)]
pub enum Call {
    Enter(u64, u64, u64, u64),
    Remove(u64, u64, u64),
    Protect(u64, u64, u64),
    Read(u64, u64),
    ClearRef(u64),
    ClearMod(u64),
    BulkRemove([u64; 8]),
    Walk(Access),
}

/// What was answered.
#[derive(Debug, PartialEq, Eq)]
pub enum Answered {
    Call(Reply),
    Walk(Walk),
}

impl Call {
    /// A random call.
    pub fn draw(source: &mut Source) -> Call {
        let ptex = 8 * GROUP + source.below(8);
        let dword0 = (1 + source.below(PAGES)) << 12 | 1;
        match source.below(100) {
            0..=19 => {
                let dword1 = (3 + source.below(64)) << 12 | source.below(4) << 7 | 0x12;
                Call::Enter(source.pick(&[0, 0, 0, flags::EXACT]), ptex, dword0, dword1)
            }
            20..=39 => {
                let test = source.pick(&[0, 0, flags::AVPN, flags::ANDCOND]);
                Call::Remove(test, ptex, dword0 & TAG)
            }
            40..=47 => Call::Protect(source.below(8), ptex, dword0 & TAG),
            48..=59 => Call::Read(source.pick(&[0, flags::READ_4]), ptex),
            60..=66 => Call::ClearRef(ptex),
            67..=73 => Call::ClearMod(ptex),
            74..=79 => Call::BulkRemove(draw_pairs(source)),
            _ => Call::Walk(draw_access(source)),
        }
    }

    /// Makes it on a table.
    pub fn on_table(self, table: &mut Table) -> Answered {
        Answered::Call(match self {
            Call::Enter(flags, ptex, pteh, ptel) => table.h_enter(flags, ptex, pteh, ptel),
            Call::Remove(flags, ptex, avpn) => table.h_remove(flags, ptex, avpn),
            Call::Protect(flags, ptex, avpn) => table.h_protect(flags, ptex, avpn),
            Call::Read(flags, ptex) => table.h_read(flags, ptex),
            Call::ClearRef(ptex) => table.h_clear_ref(0, ptex),
            Call::ClearMod(ptex) => table.h_clear_mod(0, ptex),
            Call::BulkRemove(pairs) => table.h_bulk_remove(&pairs),
            Call::Walk(access) => return Answered::Walk(table.walk(&access)),
        })
    }

    /// Makes it on a pass, to its end.
    pub fn on_pass(self, pass: &mut Pass) -> Answered {
        if let Call::Walk(access) = self {
            return Answered::Walk(pass.finish(|it| it.walk(&access)));
        }
        Answered::Call(pass.finish(|it| match self {
            Call::Enter(flags, ptex, pteh, ptel) => it.h_enter(flags, ptex, pteh, ptel),
            Call::Remove(flags, ptex, avpn) => it.h_remove(flags, ptex, avpn),
            Call::Protect(flags, ptex, avpn) => it.h_protect(flags, ptex, avpn),
            Call::Read(flags, ptex) => it.h_read(flags, ptex),
            Call::ClearRef(ptex) => it.h_clear_ref(0, ptex),
            Call::ClearMod(ptex) => it.h_clear_mod(0, ptex),
            Call::BulkRemove(pairs) => it.h_bulk_remove(&pairs),
            Call::Walk(_) => unreachable!(),
        }))
    }

    /// Its operation that gave the receipt of this number.
    fn operation(self, number: usize) -> Operation {
        match self {
            Call::Enter(_, _, pteh, ptel) => Operation::Enter(pteh, ptel),
            Call::Remove(flags, _, avpn) => Operation::Remove(flags, avpn),
            Call::Protect(flags, _, avpn) => Operation::Protect(flags, avpn),
            Call::Read(..) => Operation::Read,
            Call::ClearRef(_) => Operation::ClearRef,
            Call::ClearMod(_) => Operation::ClearMod,
            Call::BulkRemove(pairs) => {
                let test = if pairs[2 * number] >> 56 & 3 == 2 {
                    flags::AVPN
                } else {
                    0
                };
                Operation::Remove(test, pairs[2 * number + 1])
            }
            Call::Walk(access) => {
                let secondary = if number < 8 { 0 } else { 2 };
                Operation::Walk(access.vsid << 12 | secondary | 1, access)
            }
        }
    }
}

fn draw_pairs(source: &mut Source) -> [u64; 8] {
    let mut pairs = [0; 8];
    for pair in pairs.chunks_exact_mut(2) {
        pair[0] = 1 << 62 | source.pick(&[0, 2]) << 56 | (8 * GROUP + source.below(8));
        pair[1] = (1 + source.below(PAGES)) << 12;
    }
    pairs
}

fn draw_access(source: &mut Source) -> Access {
    let vsid = 1 + source.below(PAGES);
    let want = if source.below(2) == 0 {
        Want::Load
    } else {
        Want::Store
    };
    let key = source.below(4) == 0;
    Access {
        key,
        ..Access::new((vsid ^ GROUP) << 12 | 0x678, vsid, want)
    }
}

/// A part of a call, on one entry.
#[derive(Clone, Copy, Debug)]
enum Operation {
    Enter(u64, u64),
    Remove(u64, u64),
    Protect(u64, u64),
    Read,
    ClearRef,
    ClearMod,
    /// With the first doubleword of the page's entries.
    Walk(u64, Access),
}

/// An operation with its receipt.
#[derive(Clone, Copy, Debug)]
pub struct Made {
    pub receipt: Receipt,
    operation: Operation,
}

/// What a call made, with its answer.
pub fn made(call: Call, answer: &Answered) -> Vec<Made> {
    let receipts = match answer {
        Answered::Call(reply) => reply.receipts(),
        Answered::Walk(walk) => walk.receipts(),
    };
    let with_operation = |(number, receipt)| Made {
        receipt,
        operation: call.operation(number),
    };
    receipts.enumerate().map(with_operation).collect()
}

impl Made {
    /// Whether it left its entry in another state.
    pub fn is_change(&self) -> bool {
        let before = entry_of(&self.receipt);
        after(&before, &self.operation) != before
    }

    /// Where it is in the histories: what leaves the state as it is comes before what changes it.
    fn place(&self) -> (u32, u32, bool, bool, bool) {
        let it = &self.receipt;
        (
            it.entry,
            it.stamp,
            it.referenced,
            it.changed,
            self.is_change(),
        )
    }
}

/// The entry's state before, as a receipt shows it.
fn entry_of(receipt: &Receipt) -> Entry {
    Entry {
        dword0: receipt.dword0,
        dword1: receipt.dword1 & !(R | C),
        stamp: receipt.stamp,
        valid: receipt.dword0 & 1 != 0,
        referenced: receipt.referenced,
        changed: receipt.changed,
        marked: false,
    }
}

/// The entry without its mark, of which a history tells nothing.
fn unmarked(entry: &Entry) -> Entry {
    Entry {
        marked: false,
        ..*entry
    }
}

/// Whether an entry is valid and passes the test of a call's flags.
fn is_found(entry: &Entry, test: u64, avpn: u64) -> bool {
    let is_other = test & flags::AVPN != 0 && entry.dword0 & TAG != avpn;
    entry.valid && !is_other && !(test & flags::ANDCOND != 0 && entry.dword0 & avpn != 0)
}

/// Whether an entry's PP lets a load or a store in.
fn lets_in(entry: &Entry, access: &Access) -> bool {
    let protection = entry.dword1 & 3;
    match (access.key, access.want) {
        (true, Want::Store) => protection == 2,
        (true, _) => protection != 0,
        (false, Want::Store) => protection != 3,
        (false, _) => true,
    }
}

/// What an entry in this state answers.
fn answer_of(entry: &Entry, operation: &Operation) -> Answer {
    let found = |is_found, answer| if is_found { answer } else { Answer::NotFound };
    match *operation {
        Operation::Enter(..) if entry.valid => Answer::Taken,
        Operation::Enter(..) => Answer::Entered,
        Operation::Read => Answer::Read,
        Operation::Remove(test, avpn) => found(is_found(entry, test, avpn), Answer::Removed),
        Operation::Protect(test, avpn) => found(is_found(entry, test, avpn), Answer::Protected),
        Operation::ClearRef | Operation::ClearMod => found(entry.valid, Answer::Was),
        Operation::Walk(tag, _) if !entry.valid || entry.dword0 != tag => Answer::NoMatch,
        Operation::Walk(_, access) if lets_in(entry, &access) => Answer::At,
        Operation::Walk(..) => Answer::Denied,
    }
}

/// The state that an operation leaves.
fn after(entry: &Entry, operation: &Operation) -> Entry {
    let (is_kept, stamp) = match answer_of(entry, operation) {
        Answer::Entered | Answer::Removed | Answer::Protected | Answer::Was => {
            (false, entry.stamp + 1)
        }
        answer => (answer != Answer::At, entry.stamp),
    };
    if is_kept {
        return *entry;
    }
    let it = Entry { stamp, ..*entry };
    match *operation {
        Operation::Enter(dword0, dword1) => Entry {
            dword0,
            dword1: dword1 & !(R | C),
            stamp,
            valid: true,
            referenced: dword1 & R != 0,
            changed: dword1 & C != 0,
            marked: false,
        },
        Operation::Remove(..) => Entry {
            stamp,
            ..Entry::default()
        },
        Operation::Protect(flags, _) => Entry {
            dword1: entry.dword1 & !PROTECTION | flags & PROTECTION,
            ..it
        },
        Operation::ClearRef => Entry {
            referenced: false,
            ..it
        },
        Operation::ClearMod => Entry {
            changed: false,
            ..it
        },
        Operation::Read => it,
        Operation::Walk(_, access) => Entry {
            referenced: true,
            changed: entry.changed || access.want == Want::Store,
            ..it
        },
    }
}

/// What is wrong with the histories of all entries, from their opening to their closing states: a line each.
pub fn faults(opening: &[Entry], closing: &[Entry], mut made: Vec<Made>) -> Vec<String> {
    made.sort_by_key(Made::place);
    let of_entry = |index: usize| {
        let begin = made.partition_point(|it| (it.receipt.entry as usize) < index);
        let end = made.partition_point(|it| it.receipt.entry as usize <= index);
        let fault = fault(&opening[index], &closing[index], &made[begin..end])?;
        Some(format!("entry {index:#x}: {fault}"))
    };
    (0..opening.len()).filter_map(of_entry).collect()
}

/// What is wrong with the history of one entry.
fn fault(opening: &Entry, closing: &Entry, history: &[Made]) -> Option<String> {
    let mut state = unmarked(opening);
    for it in history {
        let is_next = entry_of(&it.receipt) == state;
        if !is_next || it.receipt.answer != answer_of(&state, &it.operation) {
            return Some(format!("{} comes after {state:?}", it.receipt));
        }
        state = after(&state, &it.operation);
    }
    let closing = unmarked(closing);
    (state != closing).then(|| format!("it closes as {closing:?}, after {state:?}"))
}
