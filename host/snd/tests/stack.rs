//! The deepest stack that each entry takes, measured: it runs on a painted stack of its own, and the paint that is gone tells how far it went.
//! At most 4,096 bytes; `cargo test -p snd --test stack -- --nocapture` prints the figures.
#![cfg(any(target_arch = "aarch64", target_arch = "x86_64"))]
mod common;
use common::entries::{ENTRIES, Entry};
use common::lent::Lent;
use std::arch::asm;

const MOST: usize = 4096;
const PAINT: u8 = 0xc3;
const STACK: usize = 1 << 18;
/// Both calling conventions ask for this of a stack pointer.
const ALIGNED: usize = 16;

/// What runs on the painted stack.
struct Job<'a> {
    entry: &'a Entry,
    lent: &'a mut Lent,
    answer: u64,
}

extern "C" fn run(job: &mut Job) {
    job.answer = (job.entry.call)(job.lent);
}

/// Runs `job` with the stack pointer at `top`.
///
/// # Safety
/// `top` is the end of a free block of memory, aligned to 16, that is deep enough.
unsafe fn run_at(top: *mut u8, job: &mut Job) {
    // SAFETY: the stack pointer is kept in a register that calls preserve, and put back; an entry neither unwinds nor keeps its stack.
    #[cfg(target_arch = "aarch64")]
    unsafe {
        asm!("mov x21, sp", "mov sp, x20", "blr x22", "mov sp, x21",
            in("x20") top, out("x21") _, in("x22") run as extern "C" fn(&mut Job), in("x0") job, clobber_abi("C"));
    }
    // SAFETY: as above.
    #[cfg(target_arch = "x86_64")]
    unsafe {
        asm!("xchg rsp, r12", "call r13", "mov rsp, r12",
            inout("r12") top => _, in("r13") run as extern "C" fn(&mut Job), in("rdi") job, clobber_abi("C"));
    }
}

/// How many bytes of a fresh stack an entry wrote, with the call by which the test gets to it.
fn depth(entry: &Entry, lent: &Lent) -> usize {
    let mut stack = vec![PAINT; STACK];
    let mut job = Job {
        entry,
        lent: &mut lent.clone(),
        answer: 0,
    };
    // SAFETY: the block is ours, and the stack begins in it at a multiple of 16.
    unsafe {
        let end = stack.as_mut_ptr().add(STACK);
        run_at(end.sub(end.addr() % ALIGNED), &mut job);
    }
    let kept = stack.iter().position(|&byte| byte != PAINT).unwrap_or(STACK);
    assert!(kept > 0, "{}: deeper than the whole stack", entry.name);
    STACK - kept
}

/// The states in which an entry does the most: it answers, sends, fills a table, ends a transfer.
fn cases() -> Vec<Lent> {
    let mut full = Lent::asking();
    full.page[1] = 0x80;
    let mut completed = Lent::good();
    completed.numbers = [0, 0x8000, 0, 1];
    let mut refused = Lent::good();
    refused.state.fill(0xff);
    refused.ring.fill(0xff);
    refused.model.fill(0xff);
    let mut ended = Lent::tracing();
    ended.numbers = [0, 0x8003, 0, 1];
    let mut played = Lent::idle();
    played.request = [&[0; 4][..], &[7; 4096]].concat();
    let mut queried = Lent::idle();
    queried.request = [1, 0, 0, 0, 0, 0, 0, 0, 2, 0, 0, 0, 24, 0, 0, 0].to_vec();
    vec![
        Lent::good(),
        Lent::idle(),
        Lent::asking(),
        Lent::pending(),
        Lent::capturing(),
        Lent::tracing(),
        ended,
        full,
        completed,
        refused,
        played,
        queried,
    ]
}

#[test]
fn no_entry_takes_more_than_4096_bytes() {
    let cases = cases();
    // what the test itself takes to get to an entry: the least of the entries does nothing
    let ours = depth(common::entries::entry("snd_state_size"), &cases[0]);
    println!("the way to an entry takes {ours} bytes, counted in the figures below");
    let mut deepest = ("", 0);
    for entry in ENTRIES {
        let most = cases.iter().map(|lent| depth(entry, lent)).max().unwrap();
        println!("{most:6} {}", entry.name);
        if most > deepest.1 {
            deepest = (entry.name, most);
        }
    }
    assert!(
        deepest.1 <= MOST,
        "{} takes {} bytes of stack, more than {MOST}",
        deepest.0,
        deepest.1
    );
}
