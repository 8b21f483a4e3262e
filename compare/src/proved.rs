//! The proved functions, as include/simbhoket.h declares them. All of this program's `unsafe` is
//! here: each function reads the lent bytes and nothing else, writes none but those of a slice that
//! is lent to be changed, and answers for any bytes and numbers. A slice's pointer is not null and
//! aligned, also where the slice is empty.

extern "C" {
    fn simbhoket_judge(record: *const u8, record_length: usize, waiting: u32) -> u32;
    fn simbhoket_measure(listing: *const u8, listing_length: usize, place: usize) -> u64;
    fn simbhoket_way(record: *const u8, record_length: usize, address: u32) -> u64;
    fn simbhoket_step(
        machine: *mut u8,
        machine_length: usize,
        record: *const u8,
        record_length: usize,
        memory: *mut u8,
        memory_length: usize,
        base: u32,
    ) -> u32;
    fn simbhoket_run(
        machine: *mut u8,
        machine_length: usize,
        listing: *const u8,
        listing_length: usize,
        listing_base: u32,
        memory: *mut u8,
        memory_length: usize,
        memory_base: u32,
        budget: u32,
        answer: *mut u8,
        answer_length: usize,
    ) -> u32;
    fn simbhoket_begin(
        machine: *mut u8,
        machine_length: usize,
        listing: *const u8,
        listing_length: usize,
        listing_base: u32,
        memory: *mut u8,
        memory_length: usize,
        memory_base: u32,
        budget: u32,
        answer: *mut u8,
        answer_length: usize,
    ) -> u32;
    fn simbhoket_resume(
        machine: *mut u8,
        machine_length: usize,
        listing: *const u8,
        listing_length: usize,
        listing_base: u32,
        memory: *mut u8,
        memory_length: usize,
        memory_base: u32,
        budget: u32,
        place: u32,
        answer: *mut u8,
        answer_length: usize,
    ) -> u32;
    fn simbhoket_check(listing: *const u8, listing_length: usize, base: u32) -> u64;
    fn simbhoket_rehearse(
        listing: *const u8,
        listing_length: usize,
        room: *mut u8,
        room_length: usize,
    ) -> usize;
}

/// The number of bytes that must be one record, where so many conditions wait.
pub fn judge(record: &[u8], waiting: u32) -> u32 {
    // SAFETY: pointer and length are those of one slice, which outlives the call.
    unsafe { simbhoket_judge(record.as_ptr(), record.len(), waiting) }
}

/// The listing bytes of the record at a place plus 2^32 times its machine bytes, or 0.
pub fn measure(listing: &[u8], place: usize) -> u64 {
    // SAFETY: as above.
    unsafe { simbhoket_measure(listing.as_ptr(), listing.len(), place) }
}

/// Where the record goes: 0, 1 plus 2^32 times the target, 2, or 3 for no record.
pub fn way(record: &[u8], address: u32) -> u64 {
    // SAFETY: as above.
    unsafe { simbhoket_way(record.as_ptr(), record.len(), address) }
}

/// The number 0 to 7 of a step; the machine is its image.
pub fn step(machine: &mut [u8], record: &[u8], memory: &mut [u8], base: u32) -> u32 {
    // SAFETY: each pointer and its length are those of one slice, which outlives the call; the two
    // slices lent to be changed are borrowed by nobody else.
    unsafe {
        simbhoket_step(
            machine.as_mut_ptr(),
            machine.len(),
            record.as_ptr(),
            record.len(),
            memory.as_mut_ptr(),
            memory.len(),
            base,
        )
    }
}

/// The number 0 to 10 of a run, which is also the first of the three words in the answer's room;
/// listing and memory come with their bases.
pub fn run(
    machine: &mut [u8],
    (listing, listing_base): (&[u8], u32),
    (memory, memory_base): (&mut [u8], u32),
    budget: u32,
    answer: &mut [u8],
) -> u32 {
    // SAFETY: as above, with three slices lent to be changed.
    unsafe {
        simbhoket_run(
            machine.as_mut_ptr(),
            machine.len(),
            listing.as_ptr(),
            listing.len(),
            listing_base,
            memory.as_mut_ptr(),
            memory.len(),
            memory_base,
            budget,
            answer.as_mut_ptr(),
            answer.len(),
        )
    }
}

/// As `run`, of a running machine: the stored place is a fourth word in the answer's room.
pub fn begin(
    machine: &mut [u8],
    (listing, listing_base): (&[u8], u32),
    (memory, memory_base): (&mut [u8], u32),
    budget: u32,
    answer: &mut [u8],
) -> u32 {
    // SAFETY: as above.
    unsafe {
        simbhoket_begin(
            machine.as_mut_ptr(),
            machine.len(),
            listing.as_ptr(),
            listing.len(),
            listing_base,
            memory.as_mut_ptr(),
            memory.len(),
            memory_base,
            budget,
            answer.as_mut_ptr(),
            answer.len(),
        )
    }
}

/// As `begin`, from a stored place on.
pub fn resume(
    machine: &mut [u8],
    (listing, listing_base): (&[u8], u32),
    (memory, memory_base): (&mut [u8], u32),
    budget: u32,
    place: u32,
    answer: &mut [u8],
) -> u32 {
    // SAFETY: as above.
    unsafe {
        simbhoket_resume(
            machine.as_mut_ptr(),
            machine.len(),
            listing.as_ptr(),
            listing.len(),
            listing_base,
            memory.as_mut_ptr(),
            memory.len(),
            memory_base,
            budget,
            place,
            answer.as_mut_ptr(),
            answer.len(),
        )
    }
}

/// The number of a listing's check plus 2^32 times the place.
pub fn check(listing: &[u8], base: u32) -> u64 {
    // SAFETY: as above.
    unsafe { simbhoket_check(listing.as_ptr(), listing.len(), base) }
}

/// The length of a rehearsal's text, which is put at the front of the room where it fits.
pub fn rehearse(listing: &[u8], room: &mut [u8]) -> usize {
    // SAFETY: as above, with one slice lent to be changed.
    unsafe { simbhoket_rehearse(listing.as_ptr(), listing.len(), room.as_mut_ptr(), room.len()) }
}
