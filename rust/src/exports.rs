//! The library's exports: the only unsafe code. A Rust slice's pointer is never null and always aligned, and two slices of which one
//! may be written never overlap, which is all that the library asks of its caller.

extern "C" {
    fn gongperch_plan(sheet: *const u8, sheet_len: usize, plan: *mut u8, plan_len: usize, written: *mut u64) -> u32;
    fn gongperch_clear(plan: *const u8, plan_len: usize, memory: *mut u32, memory_len: usize) -> u32;
    fn gongperch_step(
        plan: *const u8,
        plan_len: usize,
        memory: *mut u32,
        memory_len: usize,
        channels: *const u32,
        channels_len: usize,
        out: *mut u32,
        out_len: usize,
    ) -> u32;
    fn gongperch_memory_words(plan: *const u8, plan_len: usize, needed: *mut u64) -> u32;
}

pub fn plan(sheet: &[u8], plan: &mut [u8]) -> (u32, usize) {
    let mut written = 0;
    let number = unsafe { gongperch_plan(sheet.as_ptr(), sheet.len(), plan.as_mut_ptr(), plan.len(), &mut written) };
    (number, written as usize)
}

pub fn clear(plan: &[u8], memory: &mut [u32]) -> u32 {
    unsafe { gongperch_clear(plan.as_ptr(), plan.len(), memory.as_mut_ptr(), memory.len()) }
}

pub fn step(plan: &[u8], memory: &mut [u32], channels: &[u32], out: &mut [u32]) -> u32 {
    unsafe {
        gongperch_step(
            plan.as_ptr(),
            plan.len(),
            memory.as_mut_ptr(),
            memory.len(),
            channels.as_ptr(),
            channels.len(),
            out.as_mut_ptr(),
            out.len(),
        )
    }
}

pub fn memory_words(plan: &[u8]) -> (u32, usize) {
    let mut needed = 0;
    let number = unsafe { gongperch_memory_words(plan.as_ptr(), plan.len(), &mut needed) };
    (number, needed as usize)
}
