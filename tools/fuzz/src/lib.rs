//! The target of libFuzzer: a text and two store lengths, the port beside the Rust. Coverage is that of the Rust, whose branches the port mirrors; any
//! byte of either store that is not document 01's ends the run.
use compare::{Stores, known, reading_len};
use sindvaelo::scratch_bytes;
use std::cell::RefCell;

thread_local! {
    static STORES: RefCell<Stores> = RefCell::default();
}

/// The first two bytes say how far the stores' lengths are from those that just fit; the others are the text.
#[unsafe(no_mangle)]
pub unsafe extern "C" fn LLVMFuzzerTestOneInput(data: *const u8, size: usize) -> i32 {
    if size < 2 {
        return 0;
    }
    let data = unsafe { std::slice::from_raw_parts(data, size) };
    let (lengths, text) = data.split_at(2);
    let known = known(text);
    let near = |fits: usize, byte: u8| match byte {
        // Mostly as they fit, so that readings are compared.
        0..=199 => fits + usize::from(byte % 8),
        _ => fits.saturating_sub(usize::from(byte - 199)),
    };
    let (reading, scratch) = (near(reading_len(&known), lengths[0]), near(scratch_bytes(text.len()), lengths[1]));
    let difference = STORES.with_borrow_mut(|stores| stores.difference(text, &known, reading, scratch));
    if let Some(words) = difference {
        eprintln!("{words}");
        std::process::abort();
    }
    0
}
