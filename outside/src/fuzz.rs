//! libFuzzer's entry point. With the feature `linked` the proved mapper is tested, without it the independent one.

use crate::check::check_output;

fn printed(input: &[u8]) -> Vec<u8> {
    #[cfg(feature = "linked")]
    return crate::linked::map(input, &mut vec![0; crate::linked::LONGEST]).to_vec();
    #[cfg(not(feature = "linked"))]
    return crate::program::print(input).into_bytes();
}

/// Called by libFuzzer with each input that it makes up.
///
/// # Safety
///
/// `data` is valid for `size` bytes.
#[no_mangle]
#[allow(non_snake_case)]
pub unsafe extern "C" fn LLVMFuzzerTestOneInput(data: *const u8, size: usize) -> i32 {
    // SAFETY: the caller lends us so many bytes for the whole call; an empty input may come without a pointer.
    let input = if size == 0 { &[] } else { unsafe { std::slice::from_raw_parts(data, size) } };
    if let Err(fault) = check_output(input, &printed(input)) {
        eprintln!("{fault}");
        std::process::abort();
    }
    0
}
