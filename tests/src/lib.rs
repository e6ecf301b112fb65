// The second program, the library under test, and what the tests share.

pub mod batches;
pub mod cards;
pub mod compare;
pub mod ffi;
pub mod files;
pub mod lists;
pub mod questions;
pub mod random;
pub mod second;
