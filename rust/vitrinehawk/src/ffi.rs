//! The static library's functions, and the only unsafe code: each slice becomes a pointer and a length.
//!
//! The library reads its shared slices, reads and writes its mutable ones, writes its detail, keeps none of the
//! pointers, and accepts every length, all words and all bytes. So lending it slices for the time of the call is sound.
#![allow(unsafe_code)]

extern "C" {
    fn vh_check_policy(
        table: *const i32,
        table_len: usize,
        policy: *const i32,
        policy_len: usize,
        detail: *mut u64,
    ) -> u32;

    fn vh_check_log(table: *const i32, table_len: usize, log: *const i32, log_len: usize, detail: *mut u64) -> u32;

    fn vh_dual(
        table: *const i32,
        table_len: usize,
        policy: *const i32,
        policy_len: usize,
        buffer: *mut i32,
        buffer_len: usize,
        detail: *mut u64,
    ) -> u32;

    fn vh_reduce(
        table: *const i32,
        table_len: usize,
        policy: *const i32,
        policy_len: usize,
        log: *const i32,
        log_len: usize,
        scratch: *mut i32,
        scratch_len: usize,
        buffer: *mut i32,
        buffer_len: usize,
        detail: *mut u64,
    ) -> u32;

    fn vh_read_log(
        table: *const i32,
        table_len: usize,
        text: *const u8,
        text_len: usize,
        buffer: *mut i32,
        buffer_len: usize,
        detail: *mut u64,
    ) -> u32;

    fn vh_write_log(
        table: *const i32,
        table_len: usize,
        log: *const i32,
        log_len: usize,
        buffer: *mut u8,
        buffer_len: usize,
        detail: *mut u64,
    ) -> u32;

    fn vh_read_policy(
        table: *const i32,
        table_len: usize,
        text: *const u8,
        text_len: usize,
        buffer: *mut i32,
        buffer_len: usize,
        detail: *mut u64,
    ) -> u32;

    fn vh_write_policy(
        table: *const i32,
        table_len: usize,
        policy: *const i32,
        policy_len: usize,
        buffer: *mut u8,
        buffer_len: usize,
        detail: *mut u64,
    ) -> u32;
}

/// The number of a call, and its count or place.
pub struct Answer {
    /// 0 if accepted, else the number of the question.
    pub number: u32,
    /// The count if accepted, else the place.
    pub detail: u64,
}

/// Makes a call that is lent its detail.
fn answer(call: impl FnOnce(&mut u64) -> u32) -> Answer {
    let mut detail = 0;
    let number = call(&mut detail);
    Answer { number, detail }
}

/// The answer of the policy check.
pub fn check_policy(table: &[i32], policy: &[i32]) -> Answer {
    // SAFETY: pointers and lengths are those of live slices.
    answer(|detail| unsafe { vh_check_policy(table.as_ptr(), table.len(), policy.as_ptr(), policy.len(), detail) })
}

/// The answer of the log check.
pub fn check_log(table: &[i32], log: &[i32]) -> Answer {
    // SAFETY: pointers and lengths are those of live slices.
    answer(|detail| unsafe { vh_check_log(table.as_ptr(), table.len(), log.as_ptr(), log.len(), detail) })
}

/// The answer of the dual, whose words are then in the buffer.
pub fn dual(table: &[i32], policy: &[i32], buffer: &mut [i32]) -> Answer {
    // SAFETY: pointers and lengths are those of live slices; the borrows keep the buffer apart from the others.
    answer(|detail| unsafe {
        vh_dual(
            table.as_ptr(),
            table.len(),
            policy.as_ptr(),
            policy.len(),
            buffer.as_mut_ptr(),
            buffer.len(),
            detail,
        )
    })
}

/// The answer of the reduction, whose residual is then in the buffer.
pub fn reduce(table: &[i32], policy: &[i32], log: &[i32], scratch: &mut [i32], buffer: &mut [i32]) -> Answer {
    // SAFETY: pointers and lengths are those of live slices; the borrows keep scratch and buffer apart from each other
    // and from the others.
    answer(|detail| unsafe {
        vh_reduce(
            table.as_ptr(),
            table.len(),
            policy.as_ptr(),
            policy.len(),
            log.as_ptr(),
            log.len(),
            scratch.as_mut_ptr(),
            scratch.len(),
            buffer.as_mut_ptr(),
            buffer.len(),
            detail,
        )
    })
}

/// The answer of reading a log from text, whose words are then in the buffer.
pub fn read_log(table: &[i32], text: &[u8], buffer: &mut [i32]) -> Answer {
    // SAFETY: pointers and lengths are those of live slices; the borrows keep the buffer apart from the others.
    answer(|detail| unsafe {
        vh_read_log(
            table.as_ptr(),
            table.len(),
            text.as_ptr(),
            text.len(),
            buffer.as_mut_ptr(),
            buffer.len(),
            detail,
        )
    })
}

/// The answer of writing a log as text, which is then in the buffer.
pub fn write_log(table: &[i32], log: &[i32], buffer: &mut [u8]) -> Answer {
    // SAFETY: pointers and lengths are those of live slices; the borrows keep the buffer apart from the others.
    answer(|detail| unsafe {
        vh_write_log(
            table.as_ptr(),
            table.len(),
            log.as_ptr(),
            log.len(),
            buffer.as_mut_ptr(),
            buffer.len(),
            detail,
        )
    })
}

/// The answer of reading a policy from text, whose words are then in the buffer.
pub fn read_policy(table: &[i32], text: &[u8], buffer: &mut [i32]) -> Answer {
    // SAFETY: pointers and lengths are those of live slices; the borrows keep the buffer apart from the others.
    answer(|detail| unsafe {
        vh_read_policy(
            table.as_ptr(),
            table.len(),
            text.as_ptr(),
            text.len(),
            buffer.as_mut_ptr(),
            buffer.len(),
            detail,
        )
    })
}

/// The answer of writing a policy as text, which is then in the buffer.
pub fn write_policy(table: &[i32], policy: &[i32], buffer: &mut [u8]) -> Answer {
    // SAFETY: pointers and lengths are those of live slices; the borrows keep the buffer apart from the others.
    answer(|detail| unsafe {
        vh_write_policy(
            table.as_ptr(),
            table.len(),
            policy.as_ptr(),
            policy.len(),
            buffer.as_mut_ptr(),
            buffer.len(),
            detail,
        )
    })
}
