//! Prints the memory that each side holds at a number of items. It is a program of its own, since its allocator
//! counts, which would take time in the other.

use std::alloc::{GlobalAlloc, Layout, System};
use std::mem::size_of;
use std::sync::atomic::{AtomicUsize, Ordering};
use wasmi_bench_driver::ours::{wasmi_bench_dense_size, wasmi_bench_dense_slots};
use wasmi_bench_driver::ours::{wasmi_bench_vec_size, wasmi_bench_vec_slots};
use wasmi_bench_driver::rows::SIZES;
use wasmi_collections::arena::{Arena, StableVec};

// How many bytes of the Rust side are allocated.
static HELD: AtomicUsize = AtomicUsize::new(0);

struct Counting;

// Safety: each call goes on to the system's allocator unchanged.
unsafe impl GlobalAlloc for Counting {
    unsafe fn alloc(&self, layout: Layout) -> *mut u8 {
        HELD.fetch_add(layout.size(), Ordering::Relaxed);
        unsafe { System.alloc(layout) }
    }

    unsafe fn dealloc(&self, block: *mut u8, layout: Layout) {
        HELD.fetch_sub(layout.size(), Ordering::Relaxed);
        unsafe { System.dealloc(block, layout) }
    }
}

#[global_allocator]
static COUNTING: Counting = Counting;

// The bytes of a value and of the blocks that making it took.
fn held_by<T>(make: impl FnOnce() -> T) -> usize {
    let before = HELD.load(Ordering::Relaxed);
    let made = make();
    let held = HELD.load(Ordering::Relaxed) - before + size_of::<T>();
    drop(made);
    held
}

// A line of the table: the port's slots and the bytes of its value are given, the others counted.
fn print_line<T>(name: &str, n: u64, slots: u64, size: u64, theirs: impl FnOnce() -> T) {
    let ours = slots as usize * size_of::<u64>() + size as usize;
    let theirs = held_by(theirs);
    let plain = held_by(|| {
        let mut vec = Vec::new();
        (0..n).for_each(|i| vec.push(i));
        vec
    });
    let power = n.trailing_zeros();
    println!("| `{name}` | 2^{power} | {slots} | {ours} | {theirs} | {plain} |");
}

fn main() {
    println!(
        "| Container | Items of `u64` | Port, slots | Port, bytes | Rust crate, bytes | `Vec`, bytes |"
    );
    println!("|---|---|---|---|---|---|");
    for n in SIZES {
        let (slots, size) = (wasmi_bench_vec_slots(n), wasmi_bench_vec_size());
        let theirs = || (0..n).collect::<StableVec<u64>>();
        print_line("StableVec", n, slots, size, theirs);
    }
    for n in SIZES {
        let (slots, size) = (wasmi_bench_dense_slots(n), wasmi_bench_dense_size());
        print_line("Arena", n, slots, size, || {
            let mut arena = Arena::<usize, u64>::new();
            (0..n).for_each(|i| drop(arena.alloc(i)));
            arena
        });
    }
}
