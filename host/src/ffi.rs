// The proved archive's functions, and safe wrappers that answer as the reference does.

use crate::reference::{Answer, Counts};

extern "C" {
    fn dcl_judge(
        kind: u32,
        type_defs: u32,
        type_refs: u32,
        type_specs: u32,
        blob_ptr: *const u8,
        blob_len: usize,
    ) -> u64;
    fn dcl_read(
        kind: u32,
        type_defs: u32,
        type_refs: u32,
        type_specs: u32,
        blob_ptr: *const u8,
        blob_len: usize,
        table_ptr: *mut u32,
        table_len: usize,
    ) -> u64;
    fn dcl_write(
        kind: u32,
        type_defs: u32,
        type_refs: u32,
        type_specs: u32,
        table_ptr: *const u32,
        table_len: usize,
        out_ptr: *mut u8,
        out_len: usize,
    ) -> u64;
}

fn answer(packed: u64) -> Answer {
    ((packed >> 32) as u32, packed as u32)
}

pub fn judge(kind: u32, counts: Counts, blob: &[u8]) -> Answer {
    // SAFETY: the pointer and length are those of a slice that lives through the call.
    answer(unsafe {
        dcl_judge(
            kind,
            counts.type_defs,
            counts.type_refs,
            counts.type_specs,
            blob.as_ptr(),
            blob.len(),
        )
    })
}

pub fn read(kind: u32, counts: Counts, blob: &[u8], table: &mut [u32]) -> Answer {
    // SAFETY: pointers and lengths are those of two slices that live through the call and do not overlap.
    answer(unsafe {
        dcl_read(
            kind,
            counts.type_defs,
            counts.type_refs,
            counts.type_specs,
            blob.as_ptr(),
            blob.len(),
            table.as_mut_ptr(),
            table.len(),
        )
    })
}

pub fn write(kind: u32, counts: Counts, table: &[u32], out: &mut [u8]) -> Answer {
    // SAFETY: pointers and lengths are those of two slices that live through the call and do not overlap.
    answer(unsafe {
        dcl_write(
            kind,
            counts.type_defs,
            counts.type_refs,
            counts.type_specs,
            table.as_ptr(),
            table.len(),
            out.as_mut_ptr(),
            out.len(),
        )
    })
}
