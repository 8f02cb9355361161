//! The functions of the archive: their C declarations, and over each the same with slices, which is safe. All that is unsafe in
//! the library stands here.

/// As `include/ruwekiha.h` has them. Nothing checks one against the other but the tests.
pub mod c {
    extern "C" {
        pub fn rwk_cut(
            m: u32,
            n: u32,
            seed: u32,
            number: u64,
            block: *const u8,
            block_len: usize,
            fragments: *mut u8,
            fragments_len: usize,
            check: *mut u8,
            check_len: usize,
        ) -> u32;
        pub fn rwk_cut_standard(
            seed: u32,
            number: u64,
            block: *const u8,
            block_len: usize,
            fragments: *mut u8,
            fragments_len: usize,
            check: *mut u8,
            check_len: usize,
        ) -> u32;
        pub fn rwk_card_size(length: u64, size: *mut u64) -> u32;
        pub fn rwk_check(
            wanted: u64,
            check: *const u8,
            check_len: usize,
            record: *const u8,
            record_len: usize,
            value: *mut u64,
        ) -> u32;
        pub fn rwk_open(
            wanted: u64,
            check: *const u8,
            check_len: usize,
            record: *const u8,
            record_len: usize,
            start: *mut u64,
            length: *mut u64,
        ) -> u32;
        pub fn rwk_join(
            wanted: u64,
            check: *const u8,
            check_len: usize,
            records: *const u8,
            records_len: usize,
            out: *mut u8,
            out_len: usize,
            read: *mut u64,
            indexes: *mut u64,
        ) -> u32;
        pub fn rwk_sha256(
            body: *const u8,
            body_len: usize,
            digest: *mut u8,
            digest_len: usize,
        ) -> u32;
        pub fn rwk_fingerprint(
            seed: u32,
            body: *const u8,
            body_len: usize,
            column: *mut u8,
            column_len: usize,
        ) -> u32;
    }
}

// One reason serves all: every pointer comes from a slice of the length beside it or from a reference, so it is valid for the call;
// exclusive references overlap nothing; and the functions take any bytes and numbers.

pub fn cut(
    m: u32,
    n: u32,
    seed: u32,
    number: u64,
    block: &[u8],
    fragments: &mut [u8],
    check: &mut [u8],
) -> u32 {
    let (b, f, c) = (block, fragments, check);
    // SAFETY: as above; three slices.
    unsafe {
        c::rwk_cut(
            m,
            n,
            seed,
            number,
            b.as_ptr(),
            b.len(),
            f.as_mut_ptr(),
            f.len(),
            c.as_mut_ptr(),
            c.len(),
        )
    }
}

pub fn cut_standard(
    seed: u32,
    number: u64,
    block: &[u8],
    fragments: &mut [u8],
    check: &mut [u8],
) -> u32 {
    let (b, f, c) = (block, fragments, check);
    // SAFETY: as above; three slices.
    unsafe {
        c::rwk_cut_standard(
            seed,
            number,
            b.as_ptr(),
            b.len(),
            f.as_mut_ptr(),
            f.len(),
            c.as_mut_ptr(),
            c.len(),
        )
    }
}

pub fn card_size(length: u64, size: &mut u64) -> u32 {
    // SAFETY: as above; one reference.
    unsafe { c::rwk_card_size(length, size) }
}

pub fn check(wanted: u64, check: &[u8], record: &[u8], value: &mut u64) -> u32 {
    let (c, r) = (check, record);
    // SAFETY: as above; two slices and a reference.
    unsafe { c::rwk_check(wanted, c.as_ptr(), c.len(), r.as_ptr(), r.len(), value) }
}

pub fn open(wanted: u64, check: &[u8], record: &[u8], start: &mut u64, length: &mut u64) -> u32 {
    let (c, r) = (check, record);
    // SAFETY: as above; two slices and two references.
    unsafe {
        c::rwk_open(
            wanted,
            c.as_ptr(),
            c.len(),
            r.as_ptr(),
            r.len(),
            start,
            length,
        )
    }
}

pub fn join(
    wanted: u64,
    check: &[u8],
    records: &[u8],
    out: &mut [u8],
    read: &mut u64,
    indexes: &mut u64,
) -> u32 {
    let (c, r, o) = (check, records, out);
    // SAFETY: as above; three slices and two references.
    unsafe {
        c::rwk_join(
            wanted,
            c.as_ptr(),
            c.len(),
            r.as_ptr(),
            r.len(),
            o.as_mut_ptr(),
            o.len(),
            read,
            indexes,
        )
    }
}

pub fn sha256(body: &[u8], digest: &mut [u8]) -> u32 {
    let (b, d) = (body, digest);
    // SAFETY: as above; two slices.
    unsafe { c::rwk_sha256(b.as_ptr(), b.len(), d.as_mut_ptr(), d.len()) }
}

pub fn fingerprint(seed: u32, body: &[u8], column: &mut [u8]) -> u32 {
    let (b, c) = (body, column);
    // SAFETY: as above; two slices.
    unsafe { c::rwk_fingerprint(seed, b.as_ptr(), b.len(), c.as_mut_ptr(), c.len()) }
}
