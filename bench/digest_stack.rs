// That the digest's calls keep to their stack (02, Wish 4): no contract can say it, so examples/check runs this in the gate. Exits with 1 where a call
// takes more.
mod stack;

use std::hint::black_box;

extern "C" {
    fn plavdrosa_digest(bytes: *const u8, len: usize, out: *mut u8, out_len: usize) -> u8;
    fn plavdrosa_digest_start(state: *mut u8, state_len: usize) -> u8;
    fn plavdrosa_digest_update(state: *mut u8, state_len: usize, bytes: *const u8, len: usize) -> u8;
    fn plavdrosa_digest_finish(state: *const u8, state_len: usize, out: *mut u8, out_len: usize) -> u8;
}

// The bytes of stack that a call may take.
const MOST: usize = 640;

fn main() {
    // lengths on both sides of a block, and of where the padding takes a block of its own
    let mut over = false;
    for n in [0usize, 1, 55, 56, 63, 64, 65, 119, 120, 200, 1000, 8192] {
        let bytes = vec![0x61u8; n];
        let (mut state, mut out) = ([0u8; 104], [0u8; 32]);
        let whole = stack::used(|| {
            assert_eq!(unsafe { plavdrosa_digest(black_box(bytes.as_ptr()), n, out.as_mut_ptr(), 32) }, 0);
        });
        let start = stack::used(|| {
            assert_eq!(unsafe { plavdrosa_digest_start(black_box(state.as_mut_ptr()), 104) }, 0);
        });
        let update = stack::used(|| {
            assert_eq!(unsafe { plavdrosa_digest_update(state.as_mut_ptr(), 104, black_box(bytes.as_ptr()), n) }, 0);
        });
        let finish = stack::used(|| {
            assert_eq!(unsafe { plavdrosa_digest_finish(black_box(state.as_ptr()), 104, out.as_mut_ptr(), 32) }, 0);
        });
        for (call, used) in [("a digest", whole), ("starting", start), ("a piece more", update), ("finishing", finish)] {
            if used > MOST {
                println!("{call} of {n} bytes takes {used} bytes of stack, over {MOST}");
                over = true;
            }
        }
    }
    std::process::exit(over as i32);
}
