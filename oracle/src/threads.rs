// A logical thread: a stack on which the original carries out one operation after another.

use crate::context::Context;
use crate::original::domain::beside::Node;
use crate::original::raw::Pointer;
use crate::original::{AtomicPtr, Domain, HazardPointer};
use crate::shim::{self, Turn};
use std::cell::Cell;
use std::mem::ManuallyDrop;
use std::ops::Deref;
use std::panic::{catch_unwind, AssertUnwindSafe};

/// The oracle's domain family.
pub struct Family;

/// The domain outlives every hazard pointer: it is freed with its machine, which forgets them first.
pub type Hazard = HazardPointer<'static, Family>;
pub type Source = AtomicPtr<Node, Family, Owned>;

/// What the original owns a node by. Dropping it is what the deleter does; here it reports the node.
pub struct Owned(*mut Node);

impl Deref for Owned {
    type Target = Node;
    fn deref(&self) -> &Node {
        // SAFETY: made by `from_raw` of a node; nodes outlive the domain.
        unsafe { &*self.0 }
    }
}

// SAFETY: the pointer is handed through both ways, and nodes stay valid whatever becomes of their owner.
unsafe impl Pointer<Node> for Owned {
    fn into_raw(self) -> *mut Node {
        ManuallyDrop::new(self).0
    }
    unsafe fn from_raw(node: *mut Node) -> Self {
        Owned(node)
    }
}

impl Drop for Owned {
    fn drop(&mut self) {
        shim::reclaimed(self.number());
    }
}

/// An operation with all that it needs. A hazard pointer is lent to it, and comes back in the outcome.
pub enum Operation {
    Acquire,
    Release(Hazard),
    Protect(Hazard, &'static Source),
    Try(Hazard, &'static Source, *mut Node),
    TryProtect(Hazard, &'static Source, *mut Node),
    Reset(Hazard),
    Raw(Hazard, *mut Node),
    Swap(&'static Source, *mut Node),
    Retire(*mut Node),
    Eager,
    Cleanup,
    Shutdown,
}

pub enum Outcome {
    Acquired(Hazard),
    /// The hazard pointer comes back; the node protected, or 0.
    Held(Hazard, u32),
    /// The hazard pointer comes back; the node seen.
    Retry(Hazard, u32),
    /// The value of the answer.
    Done(u64),
    Panicked(String),
}

pub struct Thread {
    context: Context,
    operation: Cell<Option<Operation>>,
    outcome: Cell<Option<Outcome>>,
    domain: *mut ManuallyDrop<Domain<Family>>,
}

impl Thread {
    /// In a box, since the stack knows its address.
    pub fn new(domain: *mut ManuallyDrop<Domain<Family>>) -> Box<Self> {
        let thread = Box::new(Thread {
            context: Context::new(body, 0),
            operation: Cell::new(None),
            outcome: Cell::new(None),
            domain,
        });
        thread.forget();
        thread
    }

    /// Forgets the operation that is under way. For those that own nothing on the stack.
    pub fn forget(&self) {
        self.context.reset(body, self as *const Thread as usize);
    }

    /// Starts an operation: runs up to its first access, or to its end if it makes none.
    pub fn start(&self, turn: &Turn, operation: Operation, address: u64) -> Option<Outcome> {
        self.operation.set(Some(operation));
        turn.start(&self.context, address);
        self.outcome.take()
    }

    /// One step; the outcome if the operation ends with it.
    pub fn step(&self, turn: &Turn, clock: u64, flag: bool) -> Option<Outcome> {
        turn.step(&self.context, clock, flag);
        self.outcome.take()
    }

    /// Whether the stack was large enough up to now.
    pub fn is_whole(&self) -> bool {
        self.context.is_whole()
    }
}

// What a thread's stack runs: operations, for ever.
extern "C" fn body(thread: usize) -> ! {
    // SAFETY: the thread's own address, which stays where it is; it is dropped only while its stack does not run.
    let thread = unsafe { &*(thread as *const Thread) };
    loop {
        let operation = thread.operation.take().expect("resumed with an operation");
        // There is no frame to unwind into below this one.
        let outcome = catch_unwind(AssertUnwindSafe(|| perform(thread.domain, operation)))
            .unwrap_or_else(|panic| Outcome::Panicked(message(panic)));
        thread.outcome.set(Some(outcome));
        // SAFETY: this is the thread's stack.
        unsafe { thread.context.suspend() };
    }
}

fn message(panic: Box<dyn std::any::Any + Send>) -> String {
    let text = panic.downcast_ref::<&str>().map(|s| s.to_string());
    text.or_else(|| panic.downcast_ref::<String>().cloned()).unwrap_or_else(|| "no message".to_string())
}

fn number(node: Option<&Node>) -> u32 {
    node.map_or(0, Node::number)
}

// SAFETY, of all the original's unsafe functions below: nodes are valid for ever, so that a protection too few, or a
// node retired twice, would be a wrong answer but no wrong access. The driver refuses what document 01 refuses.
fn perform(domain: *mut ManuallyDrop<Domain<Family>>, operation: Operation) -> Outcome {
    // SAFETY: the machine frees the domain after its threads.
    let living = unsafe { &**domain };
    match operation {
        Operation::Acquire => Outcome::Acquired(HazardPointer::new_in_domain(living)),
        Operation::Release(hazard) => {
            drop(hazard);
            Outcome::Done(0)
        }
        Operation::Protect(mut hazard, source) => {
            let node = number(unsafe { source.load(&mut hazard) });
            Outcome::Held(hazard, node)
        }
        Operation::Try(mut hazard, source, node) => {
            let source = unsafe { source.as_std() };
            match hazard.try_protect_ptr(node, source).map(|held| held.map(|(node, _)| node.as_ptr().cast_const())) {
                Ok(node) => Outcome::Held(hazard, number(node.map(|n| unsafe { &*n }))),
                Err(seen) => Outcome::Retry(hazard, number(unsafe { seen.as_ref() })),
            }
        }
        Operation::TryProtect(mut hazard, source, node) => {
            let source = unsafe { source.as_std() };
            match unsafe { hazard.try_protect(node, source) }.map(number) {
                Ok(node) => Outcome::Held(hazard, node),
                Err(seen) => Outcome::Retry(hazard, number(unsafe { seen.as_ref() })),
            }
        }
        Operation::Reset(mut hazard) => {
            hazard.reset_protection();
            Outcome::Held(hazard, 0)
        }
        Operation::Raw(mut hazard, node) => {
            hazard.protect_raw(node);
            Outcome::Held(hazard, 0)
        }
        Operation::Swap(source, node) => {
            let old = unsafe { source.swap_ptr(node) };
            Outcome::Done(old.map_or(0, |old| unsafe { old.into_inner().as_ref() }.number().into()))
        }
        Operation::Retire(node) => Outcome::Done(unsafe { living.retire_ptr::<Node, Owned>(node) } as u64),
        Operation::Eager => Outcome::Done(living.eager_reclaim() as u64),
        Operation::Cleanup => {
            living.cleanup();
            Outcome::Done(0)
        }
        Operation::Shutdown => {
            // SAFETY: the driver lets nobody in after this, and its looks at the domain know of it.
            unsafe { ManuallyDrop::drop(&mut *domain) };
            // The original's drop answers nothing; the driver has counted the nodes.
            Outcome::Done(0)
        }
    }
}
