//! How long a thread tries.

use core::hint;
use core::time::Duration;
use std::thread;

/// Tries before the first yield.
const SPINS: u64 = 16;
/// Tries before the first sleep.
const YIELDS: u64 = 64;
const A_SLEEP: Duration = Duration::from_micros(50);

/// Lets the thread go on that is at an entry, after so many tries: it only pauses after each of the
/// first 16, yields the processor up to the 64th, and then sleeps for 50 microseconds.
pub fn give_way(tries: u64) {
    if tries <= SPINS {
        hint::spin_loop();
    } else if tries <= YIELDS {
        thread::yield_now();
    } else {
        thread::sleep(A_SLEEP);
    }
}
