//! The functions of the port's library that this package calls.
//!
//! They say what `crates/exports_c` exports; only tests compare the two. A slice passes as a pointer and a length, an array as a pointer.
//!
//! The program `tools/oracle` takes this file in too, so that its comparison of
//! the port with the original calls the port by these declarations.

/// The bytes that a sheet's text is lent; the longest text is shorter.
pub const SHEET_BYTES: usize = 256;

extern "C" {
    pub fn readability_clearance(
        net: *const u32,
        net_length: usize,
        orientation: *const u8,
        orientation_length: usize,
        fixed: *const f64,
        fixed_length: usize,
        start: *const f64,
        start_length: usize,
        end: *const f64,
        end_length: usize,
        id: *const u32,
        id_length: usize,
        x: *const f64,
        x_length: usize,
        y: *const f64,
        y_length: usize,
        width: *const f64,
        width_length: usize,
        height: *const f64,
        height_length: usize,
        exempt_net: *const u32,
        exempt_net_length: usize,
        exempt_node: *const u32,
        exempt_node_length: usize,
        threshold: f64,
        allowance: usize,
        scratch: *mut u64,
        scratch_length: usize,
        out: *mut [u64; 4],
    ) -> u32;

    pub fn readability_separation(
        net: *const u32,
        net_length: usize,
        orientation: *const u8,
        orientation_length: usize,
        fixed: *const f64,
        fixed_length: usize,
        start: *const f64,
        start_length: usize,
        end: *const f64,
        end_length: usize,
        allowance: usize,
        scratch: *mut u64,
        scratch_length: usize,
        out: *mut [u64; 5],
    ) -> u32;

    pub fn readability_density_profile(
        net: *const u32,
        net_length: usize,
        orientation: *const u8,
        orientation_length: usize,
        fixed: *const f64,
        fixed_length: usize,
        start: *const f64,
        start_length: usize,
        end: *const f64,
        end_length: usize,
        cutoff: f64,
        allowance: usize,
        scratch: *mut u64,
        scratch_length: usize,
        out: *mut [u64; 7],
    ) -> u32;

    pub fn readability_congestion_profile(
        net: *const u32,
        net_length: usize,
        orientation: *const u8,
        orientation_length: usize,
        fixed: *const f64,
        fixed_length: usize,
        start: *const f64,
        start_length: usize,
        end: *const f64,
        end_length: usize,
        cutoff: f64,
        allowance: usize,
        scratch: *mut u64,
        scratch_length: usize,
        out: *mut [u64; 7],
    ) -> u32;

    pub fn readability_congestion(
        net: *const u32,
        net_length: usize,
        orientation: *const u8,
        orientation_length: usize,
        fixed: *const f64,
        fixed_length: usize,
        start: *const f64,
        start_length: usize,
        end: *const f64,
        end_length: usize,
        cutoff: f64,
        scratch: *mut u64,
        scratch_length: usize,
        out: *mut [u64; 7],
    ) -> u32;

    pub fn readability_ratio(total: f64, congested: f64) -> f64;

    pub fn readability_version_0_3() -> u32;

    pub fn readability_tight_pair(
        net: *const u32,
        net_length: usize,
        orientation: *const u8,
        orientation_length: usize,
        fixed: *const f64,
        fixed_length: usize,
        start: *const f64,
        start_length: usize,
        end: *const f64,
        end_length: usize,
        id: *const u32,
        id_length: usize,
        x: *const f64,
        x_length: usize,
        y: *const f64,
        y_length: usize,
        width: *const f64,
        width_length: usize,
        height: *const f64,
        height_length: usize,
        exempt_net: *const u32,
        exempt_net_length: usize,
        exempt_node: *const u32,
        exempt_node_length: usize,
        out: *mut [u64; 3],
    ) -> u32;

    pub fn readability_join(
        net: *const u32,
        net_length: usize,
        orientation: *const u8,
        orientation_length: usize,
        fixed: *const f64,
        fixed_length: usize,
        start: *const f64,
        start_length: usize,
        end: *const f64,
        end_length: usize,
        to_net: *mut u32,
        to_net_length: usize,
        to_orientation: *mut u8,
        to_orientation_length: usize,
        to_fixed: *mut f64,
        to_fixed_length: usize,
        to_start: *mut f64,
        to_start_length: usize,
        to_end: *mut f64,
        to_end_length: usize,
        out: *mut [u64; 2],
    ) -> u32;

    pub fn readability_sheet(
        bytes: *const u8,
        bytes_length: usize,
        text: *mut [u8; SHEET_BYTES],
    ) -> usize;
}
