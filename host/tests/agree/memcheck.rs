//! Words to valgrind's memcheck: which bytes may not be touched. Outside valgrind they do nothing.

use std::arch::asm;

const FORBID: usize = 0x4d43_0000;
const ALLOW: usize = 0x4d43_0002;
const RUNNING: usize = 0x1001;

/// valgrind knows this run of instructions, which changes nothing, and answers in rdx.
fn request(code: usize, bytes: &[u8]) -> usize {
    let words = [code, bytes.as_ptr() as usize, bytes.len(), 0, 0, 0];
    let mut answer = 0usize;
    // SAFETY: four rotations by 128 in all and an exchange of a register with itself leave every register as it was.
    unsafe {
        asm!(
            "rol rdi, 3",
            "rol rdi, 13",
            "rol rdi, 61",
            "rol rdi, 51",
            "xchg rbx, rbx",
            in("rax") words.as_ptr(),
            inout("rdx") answer,
        );
    }
    answer
}

/// From now on a read or a write of these bytes is an error.
pub fn forbid(bytes: &[u8]) {
    request(FORBID, bytes);
}

/// These bytes may be read and written again, and hold what they held.
pub fn allow(bytes: &[u8]) {
    request(ALLOW, bytes);
}

pub fn running() -> bool {
    request(RUNNING, &[]) != 0
}
