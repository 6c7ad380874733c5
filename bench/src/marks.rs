//! bench/instructions counts from one mark to the other, and finds them by their names.

use std::hint::black_box;

#[no_mangle]
#[inline(never)]
pub extern "C" fn count_from() {
    black_box(());
}

#[no_mangle]
#[inline(never)]
pub extern "C" fn count_to() {
    black_box(());
}
