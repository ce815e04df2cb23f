//! The rows of the bench, on three sides: the port, the Rust crate, and the plain container below it. Some have a fourth.

pub mod chart;
pub mod linking;
pub mod module;
pub mod ours;
pub mod plain;
pub mod progress;
pub mod row;
pub mod rows;
pub mod script;
pub mod scripts;
pub mod tables;
pub mod theirs;
pub mod timing;

// With `--cfg shifted` 16 bytes stand before the code of both sides, so that each loop lies elsewhere.
#[cfg(shifted)]
std::arch::global_asm!(
    ".pushsection .text.hot.shifted, \"axR\", @progbits",
    ".p2align 4",
    ".fill 16, 1, 0x90",
    ".popsection",
);
