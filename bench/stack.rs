// How much stack a call uses: the stack below is painted, the call is made, and the lowest byte that changed is looked for. Counted from
// the stack pointer of the caller, so the return address and what the closure around the call keeps are in the figure.
use std::arch::asm;
use std::ptr;

const PAINT: u8 = 0xa5;
const DEPTH: usize = 512 * 1024;

#[inline(never)]
fn measure<F: FnMut()>(f: &mut F) -> usize {
    let sp: usize;
    unsafe {
        // while this block runs nobody keeps anything below the stack pointer
        asm!(
            "mov {sp}, rsp",
            "lea rdi, [rsp - {depth}]",
            "mov ecx, {depth}",
            "mov al, {paint}",
            "rep stosb",
            sp = out(reg) sp,
            depth = const DEPTH,
            paint = const PAINT,
            out("rdi") _,
            out("rcx") _,
            out("al") _,
        );
    }
    f();
    let mut p = sp - DEPTH;
    while p < sp && unsafe { ptr::read_volatile(p as *const u8) } == PAINT {
        p += 1;
    }
    sp - p
}

// In a thread of its own, whose stack is large enough.
pub fn used<F: FnMut() + Send>(mut f: F) -> usize {
    std::thread::scope(|s| {
        std::thread::Builder::new()
            .stack_size(4 * 1024 * 1024)
            .spawn_scoped(s, || {
                f();
                measure(&mut f)
            })
            .unwrap()
            .join()
            .unwrap()
    })
}
