//! The proved load as it is exported: over a lent input and a lent output.
//!
//! Nothing checks this declaration against the Rattle source `crates/load_c/src/lib.rt`: a slice is a pointer and then
//! its length there.

/// The output has at least this many bytes.
pub const OUTPUT: usize = 1024;

extern "C" {
    fn load_run(input: *const u8, input_length: usize, out: *mut u8, out_length: usize) -> usize;
}

/// Writes what the load prints for this input to the front of the output, and returns how many bytes that is; 0, and
/// nothing written, where the output is too short.
pub fn load(input: &[u8], out: &mut [u8]) -> usize {
    // The exported function requires nothing: it reads and writes inside the slices that it is lent, which the borrows
    // here keep valid and apart, and returns.
    unsafe { load_run(input.as_ptr(), input.len(), out.as_mut_ptr(), out.len()) }
}
