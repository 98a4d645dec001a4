//! The proved library's ten calls, as `include/zenkorv.h` declares them; each
//! has a wrapper that is safe to call with any slices.

extern "C" {
    fn zenkorv_read(
        image: *const u8,
        image_length: usize,
        record: *mut u8,
        record_length: usize,
        words: *mut u32,
        word_count: usize,
    ) -> u8;

    fn zenkorv_run(
        record: *mut u8,
        record_length: usize,
        words: *mut u32,
        word_count: usize,
        limit: u16,
    ) -> u32;

    fn zenkorv_stretch(
        record: *mut u8,
        record_length: usize,
        words: *mut u32,
        word_count: usize,
        limit: u16,
    ) -> u32;

    fn zenkorv_step(
        record: *mut u8,
        record_length: usize,
        words: *mut u32,
        word_count: usize,
    ) -> u16;

    fn zenkorv_write(
        record: *const u8,
        record_length: usize,
        words: *const u32,
        word_count: usize,
        output: *mut u8,
        output_length: usize,
    ) -> u32;

    fn zenkorv_segment(
        record: *const u8,
        record_length: usize,
        words: *const u32,
        word_count: usize,
        segment: u8,
        first: *mut u16,
        count: *mut u16,
    ) -> u8;

    fn zenkorv_check(
        record: *const u8,
        record_length: usize,
        write: u8,
        tag: u8,
        segment: u8,
        word: u16,
    ) -> u32;

    fn zenkorv_restart(record: *mut u8, record_length: usize) -> u8;

    fn zenkorv_entry(
        image: *const u8,
        image_length: usize,
        limit: u16,
        result: *mut u8,
        result_length: usize,
    ) -> u8;

    fn zenkorv_log(
        record: *mut u8,
        record_length: usize,
        words: *mut u32,
        word_count: usize,
        log: *mut u8,
        log_length: usize,
        calls: *mut u16,
        returns: *mut u16,
    ) -> u32;
}

// In each wrapper a pointer and its length are those of a slice, or of a
// number that lives through the call. The function reads within those that it
// takes as `const`, and reads and writes within the others.

/// Whether the library is linked; it is.
pub fn linked() -> Result<(), String> {
    Ok(())
}

/// Reads an image into a record and its words; 0 or the number of the refusal.
pub fn read(image: &[u8], record: &mut [u8], words: &mut [u32]) -> u8 {
    // SAFETY: see above.
    unsafe {
        zenkorv_read(
            image.as_ptr(),
            image.len(),
            record.as_mut_ptr(),
            record.len(),
            words.as_mut_ptr(),
            words.len(),
        )
    }
}

/// Runs the machine of a record. Gives the ending in bits 24 to 31, the number
/// of a fault or refusal in bits 16 to 23, the count in bits 0 to 15.
pub fn run(record: &mut [u8], words: &mut [u32], limit: u16) -> u32 {
    // SAFETY: see above.
    unsafe {
        zenkorv_run(
            record.as_mut_ptr(),
            record.len(),
            words.as_mut_ptr(),
            words.len(),
            limit,
        )
    }
}

/// Makes a stretch of it; gives the same.
pub fn stretch(record: &mut [u8], words: &mut [u32], limit: u16) -> u32 {
    // SAFETY: see above.
    unsafe {
        zenkorv_stretch(
            record.as_mut_ptr(),
            record.len(),
            words.as_mut_ptr(),
            words.len(),
            limit,
        )
    }
}

/// One instruction. Gives the number of a refusal or fault in bits 0 to 7, and
/// bit 8 for a HALT.
pub fn step(record: &mut [u8], words: &mut [u32]) -> u16 {
    // SAFETY: see above.
    unsafe {
        zenkorv_step(
            record.as_mut_ptr(),
            record.len(),
            words.as_mut_ptr(),
            words.len(),
        )
    }
}

/// Writes the image of a record and its words; its length, or 0x10000 plus the
/// number of the refusal.
pub fn write(record: &[u8], words: &[u32], output: &mut [u8]) -> u32 {
    // SAFETY: see above.
    unsafe {
        zenkorv_write(
            record.as_ptr(),
            record.len(),
            words.as_ptr(),
            words.len(),
            output.as_mut_ptr(),
            output.len(),
        )
    }
}

/// Puts a segment's first word and its number of words; 0 or the number of the
/// refusal.
pub fn segment(record: &[u8], words: &[u32], segment: u8, first: &mut u16, count: &mut u16) -> u8 {
    // SAFETY: see above.
    unsafe {
        zenkorv_segment(
            record.as_ptr(),
            record.len(),
            words.as_ptr(),
            words.len(),
            segment,
            first,
            count,
        )
    }
}

/// The index of the word that is referred to, or 0x10000 plus the number of
/// the refusal.
pub fn check(record: &[u8], write: u8, tag: u8, segment: u8, word: u16) -> u32 {
    // SAFETY: see above.
    unsafe { zenkorv_check(record.as_ptr(), record.len(), write, tag, segment, word) }
}

/// Makes a record the fresh machine of its layout; 0 or the number of the
/// refusal.
pub fn restart(record: &mut [u8]) -> u8 {
    // SAFETY: see above.
    unsafe { zenkorv_restart(record.as_mut_ptr(), record.len()) }
}

/// Runs an image in a memory of its own and puts ending, fault and count into
/// the result; 0 or the number of the refusal.
pub fn entry(image: &[u8], limit: u16, result: &mut [u8]) -> u8 {
    // SAFETY: see above.
    unsafe {
        zenkorv_entry(
            image.as_ptr(),
            image.len(),
            limit,
            result.as_mut_ptr(),
            result.len(),
        )
    }
}

/// Runs the machine of a record for at most 1,000 instructions, and puts a
/// record for each crossing into the log, and how many calls and returns there
/// were; gives what a run gives.
pub fn log(
    record: &mut [u8],
    words: &mut [u32],
    log: &mut [u8],
    calls: &mut u16,
    returns: &mut u16,
) -> u32 {
    // SAFETY: see above.
    unsafe {
        zenkorv_log(
            record.as_mut_ptr(),
            record.len(),
            words.as_mut_ptr(),
            words.len(),
            log.as_mut_ptr(),
            log.len(),
            calls,
            returns,
        )
    }
}
