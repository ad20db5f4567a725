//! The stack that a call takes.

use std::arch::asm;
use std::hint::black_box;

/// The bytes of the stack that a call is tried on.
const SIZE: usize = 1 << 20;

/// What the stack is painted with.
const PAINT: u8 = 0xa5;

/// Runs a call on a painted stack of its own, and answers how far down it changed the paint: the
/// stack of the call with its arguments and its answer.
pub fn taken<T>(mut call: impl FnMut() -> T) -> usize {
    run_on_paint(&mut || {
        let answer = call();
        black_box(&answer);
    })
}

fn run_on_paint(call: &mut dyn FnMut()) -> usize {
    let mut stack = vec![PAINT; SIZE];
    let top = stack.as_mut_ptr_range().end as usize & !15;
    let mut call = call;
    let call: *mut &mut dyn FnMut() = &mut call;
    // SAFETY: the stack is ours, large enough and aligned as the C convention asks. r12 keeps the
    // old stack's place, since a C function restores it, and `enter` doesn't unwind.
    unsafe {
        asm!(
            "xchg rsp, r12",
            "call {enter}",
            "mov rsp, r12",
            enter = sym enter,
            in("rdi") call,
            inout("r12") top => _,
            clobber_abi("C"),
        );
    }
    SIZE - stack.iter().take_while(|&&byte| byte == PAINT).count()
}

/// Makes the call. A panic in it ends the program here.
///
/// # Safety
///
/// The pointer must be that of a call that nothing else uses.
unsafe extern "C" fn enter(call: *mut &mut dyn FnMut()) {
    // SAFETY: so the caller says.
    (unsafe { &mut *call })();
}
