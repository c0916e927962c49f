//! What is measured: time, or, under bench/count, the instructions that the emulator has run.

use std::arch::asm;
use std::env;
use std::sync::LazyLock;
use std::time::Instant;

/// The call that bench/count.c answers and no kernel has.
const READ_COUNT: u64 = 104_104;
const NOT_ANSWERED: u64 = u64::MAX;

static START: LazyLock<Instant> = LazyLock::new(Instant::now);
static COUNTS: LazyLock<bool> = LazyLock::new(|| env::var_os("BENCH_COUNT").is_some());

/// Are instructions counted, which are the same in every run?
pub fn counts() -> bool {
    *COUNTS
}

/// The unit of all figures.
pub fn unit() -> &'static str {
    if counts() { "thousand instructions" } else { "µs" }
}

/// What has passed since some moment before the first call.
pub fn now() -> f64 {
    if counts() { instructions() as f64 / 1e3 } else { START.elapsed().as_secs_f64() * 1e6 }
}

fn instructions() -> u64 {
    let mut count = NOT_ANSWERED;
    // SAFETY: a call with a number that the kernel does not have changes nothing but rax, rcx and r11; the emulator writes eight octets,
    // `count`, which outlives the call.
    unsafe {
        asm!("syscall", inlateout("rax") READ_COUNT => _, in("rdi") &raw mut count, out("rcx") _, out("r11") _, options(nostack));
    }
    assert_ne!(count, NOT_ANSWERED, "nothing counts instructions here: start the bench by bench/count");
    count
}
