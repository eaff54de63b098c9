//! The C call of the archive that the programs here are linked with.

extern "C" {
    pub fn fanchuki_plan(
        query: *const u8,
        query_length: usize,
        output: *mut u8,
        output_length: usize,
    ) -> u64;
}
