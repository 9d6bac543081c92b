// Stacks and the switch between them: what lets a logical thread stop in the middle of the original's code.

use std::alloc::{alloc, dealloc, handle_alloc_error, Layout};
use std::cell::Cell;

// A symbol's name in the assembler. Apple's has an underscore before it.
#[cfg(target_vendor = "apple")]
macro_rules! symbol {
    ($name:literal) => {
        concat!("_", $name)
    };
}
#[cfg(not(target_vendor = "apple"))]
macro_rules! symbol {
    ($name:literal) => {
        $name
    };
}

// oracle_switch(save, load) pushes the registers that a function has to keep, stores the stack pointer to `save`, takes
// the one in `load` and pops. To the compiler it is a call of a foreign function that returns later.
// A new stack is laid out as if it had called oracle_switch from oracle_enter, see `Context::new`.

#[cfg(target_arch = "x86_64")]
std::arch::global_asm!(
    concat!(".globl ", symbol!("oracle_switch")),
    concat!(symbol!("oracle_switch"), ":"),
    "push rbp",
    "push rbx",
    "push r12",
    "push r13",
    "push r14",
    "push r15",
    "mov [rdi], rsp",
    "mov rsp, rsi",
    "pop r15",
    "pop r14",
    "pop r13",
    "pop r12",
    "pop rbx",
    "pop rbp",
    "ret",
    concat!(".globl ", symbol!("oracle_enter")),
    concat!(symbol!("oracle_enter"), ":"),
    "mov rdi, r12",
    "call rbx",
    "ud2",
);

#[cfg(target_arch = "aarch64")]
std::arch::global_asm!(
    ".p2align 2",
    concat!(".globl ", symbol!("oracle_switch")),
    concat!(symbol!("oracle_switch"), ":"),
    "sub sp, sp, #160",
    "stp x19, x20, [sp, #0]",
    "stp x21, x22, [sp, #16]",
    "stp x23, x24, [sp, #32]",
    "stp x25, x26, [sp, #48]",
    "stp x27, x28, [sp, #64]",
    "stp x29, x30, [sp, #80]",
    "stp d8, d9, [sp, #96]",
    "stp d10, d11, [sp, #112]",
    "stp d12, d13, [sp, #128]",
    "stp d14, d15, [sp, #144]",
    "mov x9, sp",
    "str x9, [x0]",
    "mov sp, x1",
    "ldp x19, x20, [sp, #0]",
    "ldp x21, x22, [sp, #16]",
    "ldp x23, x24, [sp, #32]",
    "ldp x25, x26, [sp, #48]",
    "ldp x27, x28, [sp, #64]",
    "ldp x29, x30, [sp, #80]",
    "ldp d8, d9, [sp, #96]",
    "ldp d10, d11, [sp, #112]",
    "ldp d12, d13, [sp, #128]",
    "ldp d14, d15, [sp, #144]",
    "add sp, sp, #160",
    "ret",
    concat!(".globl ", symbol!("oracle_enter")),
    concat!(symbol!("oracle_enter"), ":"),
    "mov x0, x19",
    "blr x20",
    "brk #1",
);

#[cfg(not(any(target_arch = "x86_64", target_arch = "aarch64")))]
compile_error!("the oracle switches stacks on x86_64 and aarch64 only");

extern "C" {
    fn oracle_switch(save: *mut usize, load: usize);
    fn oracle_enter();
}

/// What a stack runs first. It must not return: there is nothing below it.
pub type Entry = extern "C" fn(usize) -> !;

// The original calls no function of its own again, and a BTreeSet's depth is small; a panic's message needs the most.
const STACK: usize = 256 * 1024;
// At the stack's low end; written over, the stack was too small.
const MARK: usize = 0x5afe_57ac_5afe_57ac;

/// A stack of its own, and both stack pointers: its while it waits, the driver's while it runs.
pub struct Context {
    base: *mut u8,
    own: Cell<usize>,
    driver: Cell<usize>,
}

impl Context {
    fn layout() -> Layout {
        Layout::from_size_align(STACK, 16).expect("a power of two")
    }

    /// A stack that will run `entry(argument)` when first resumed.
    pub fn new(entry: Entry, argument: usize) -> Self {
        // SAFETY: the size is not 0.
        let base = unsafe { alloc(Self::layout()) };
        if base.is_null() {
            handle_alloc_error(Self::layout());
        }
        let context = Context { base, own: Cell::new(0), driver: Cell::new(0) };
        context.reset(entry, argument);
        context
    }

    /// Forgets what the stack held and lays it out anew. What it held is not dropped.
    pub fn reset(&self, entry: Entry, argument: usize) {
        let enter = oracle_enter as unsafe extern "C" fn() as usize;
        // The registers as oracle_switch pops them, lowest first, up to the return address.
        #[cfg(target_arch = "x86_64")]
        let frame: [usize; 8] = [0, 0, 0, argument, entry as usize, 0, enter, 0];
        #[cfg(target_arch = "aarch64")]
        let frame: [usize; 20] = [argument, entry as usize, 0, 0, 0, 0, 0, 0, 0, 0, 0, enter, 0, 0, 0, 0, 0, 0, 0, 0];
        // Both machines want the stack pointer a multiple of 16 when oracle_enter calls. On x86_64 the frame's first
        // seven words are popped by then; so the frame begins 8 bytes past such a multiple.
        #[cfg(target_arch = "x86_64")]
        let top = STACK - 16 - 8;
        #[cfg(target_arch = "aarch64")]
        let top = STACK - 16;
        let at = top - frame.len() * size_of::<usize>();
        // SAFETY: both writes are inside the allocation, and aligned, as `base` is.
        unsafe {
            self.base.cast::<usize>().write(MARK);
            self.base.add(at).cast::<[usize; FRAME]>().write(frame);
        }
        self.own.set(self.base as usize + at);
    }

    /// Runs the stack until it suspends.
    ///
    /// # Safety
    /// The caller is the driver, on its own stack, and no other context runs.
    pub unsafe fn resume(&self) {
        // SAFETY: `own` was laid out by `reset` or stored by `suspend`, and the stack is not running.
        unsafe { oracle_switch(self.driver.as_ptr(), self.own.get()) };
    }

    /// Gives the turn back to the driver; returns when resumed.
    ///
    /// # Safety
    /// The caller runs on this stack.
    pub unsafe fn suspend(&self) {
        // SAFETY: `driver` was stored by the `resume` that runs this stack.
        unsafe { oracle_switch(self.own.as_ptr(), self.driver.get()) };
    }

    /// Whether the stack was large enough up to now.
    pub fn is_whole(&self) -> bool {
        // SAFETY: the mark was written by `reset` at the allocation's start.
        unsafe { self.base.cast::<usize>().read() == MARK }
    }
}

#[cfg(target_arch = "x86_64")]
const FRAME: usize = 8;
#[cfg(target_arch = "aarch64")]
const FRAME: usize = 20;

impl Drop for Context {
    fn drop(&mut self) {
        // SAFETY: allocated by `new` with this layout. What the stack still holds is forgotten.
        unsafe { dealloc(self.base, Self::layout()) };
    }
}

#[cfg(test)]
mod tests {
    use super::*;
    use std::cell::RefCell;

    struct Pair {
        context: RefCell<Option<Context>>,
        said: RefCell<Vec<u32>>,
    }

    extern "C" fn count(pair: usize) -> ! {
        // SAFETY: the test keeps the pair while the stack runs.
        let pair = unsafe { &*(pair as *const Pair) };
        let mut n = 0;
        loop {
            n += 1;
            pair.said.borrow_mut().push(n);
            let context: *const Context = pair.context.borrow().as_ref().unwrap();
            // SAFETY: this runs on that stack.
            unsafe { (*context).suspend() };
        }
    }

    #[test]
    fn a_stack_goes_on_where_it_stopped_and_starts_anew_when_reset() {
        let pair = Pair { context: RefCell::new(None), said: RefCell::new(Vec::new()) };
        let argument = &pair as *const Pair as usize;
        *pair.context.borrow_mut() = Some(Context::new(count, argument));
        let context: *const Context = pair.context.borrow().as_ref().unwrap();
        // SAFETY: the test is the driver, and the context lives in the pair.
        unsafe {
            (*context).resume();
            (*context).resume();
            (*context).resume();
            (*context).reset(count, argument);
            (*context).resume();
            assert!((*context).is_whole());
        }
        assert_eq!(*pair.said.borrow(), [1, 2, 3, 1]);
    }
}
