//! How deep a call goes: it runs on a painted stack of its own, and the lowest word that is not
//! paint any more tells.

use crate::desk::Desk;
use crate::machine::Machine;
use crate::round;
use std::arch::asm;

/// The words of a painted stack: far more than any call needs.
const WORDS: usize = 8192;
/// A word that no call writes by chance.
const PAINT: u64 = 0xA5C3_5A3C_96E1_690F;

/// Two words where C wants the top of its stack: at a multiple of 16 bytes.
#[derive(Clone, Copy)]
#[repr(align(16))]
struct Pair([u64; 2]);

/// Calls a function with these numbers on a stack whose top is here, where the last two numbers
/// stand already.
///
/// # Safety
///
/// The function takes these numbers, and the stack is deep enough for it.
#[cfg(target_arch = "x86_64")]
unsafe fn call_on(top: *mut Pair, function: usize, numbers: &[u64; 8]) {
    asm!(
        "mov r12, rsp",
        "mov rsp, {top}",
        "call {function}",
        "mov rsp, r12",
        top = in(reg) top,
        function = in(reg) function,
        in("rdi") numbers[0],
        in("rsi") numbers[1],
        in("rdx") numbers[2],
        in("rcx") numbers[3],
        in("r8") numbers[4],
        in("r9") numbers[5],
        out("r12") _,
        clobber_abi("C"),
    );
}

/// As on x86-64; here all eight numbers go in registers, and so does the return address.
///
/// # Safety
///
/// The function takes these numbers, and the stack is deep enough for it.
#[cfg(target_arch = "aarch64")]
unsafe fn call_on(top: *mut Pair, function: usize, numbers: &[u64; 8]) {
    asm!(
        "mov x20, sp",
        "mov sp, {top}",
        "blr {function}",
        "mov sp, x20",
        top = in(reg) top,
        function = in(reg) function,
        in("x0") numbers[0],
        in("x1") numbers[1],
        in("x2") numbers[2],
        in("x3") numbers[3],
        in("x4") numbers[4],
        in("x5") numbers[5],
        in("x6") numbers[6],
        in("x7") numbers[7],
        out("x20") _,
        clobber_abi("C"),
    );
}

/// Makes a call on a painted stack. Gives the bytes it used below the numbers that C passes on the
/// stack: its return address, where that stands on the stack, and everything under it.
fn used<M: Machine>(desk: &mut Desk<M>, call: M::Call) -> usize {
    let (function, numbers) = desk.passed(call);
    let mut stack = vec![Pair([PAINT; 2]); WORDS / 2];
    let top = stack.len() - 1;
    stack[top] = Pair([numbers[6], numbers[7]]);
    // SAFETY: the function takes these numbers, its buffers are the desk's, and it has a stack.
    unsafe { call_on(stack.as_mut_ptr().add(top), function, &numbers) };
    let words = stack[..top].iter().flat_map(|pair| pair.0);
    let untouched = words.take_while(|&word| word == PAINT).count();
    8 * (2 * top - untouched)
}

/// The most bytes of stack that a call of a side uses, over a round of every work and all other
/// calls, and the call that used them.
pub fn deepest<M: Machine>(side: M::Side) -> (usize, Option<M::Call>) {
    let store = 64;
    let mut deepest = (0, None);
    for (_, work) in M::WORKS {
        let round = round::written_down::<M>(*work, store);
        let mut desk = Desk::<M>::new(side, store);
        let steps = round.set_up.iter().chain(&round.steps);
        let others = M::OTHERS.iter().copied();
        for call in steps.map(|step| step.call).chain(others) {
            let bytes = used(&mut desk, call);
            if bytes > deepest.0 {
                deepest = (bytes, Some(call));
            }
        }
    }
    deepest
}
