//! The machine's two functions, and the tables that they are lent. The only unsafe code of the crate: the pointers and
//! lengths are those of arrays that are borrowed for the call.

/// What the two functions give back.
#[repr(C)]
pub struct Reply {
    pub number: u32,
    pub value: u64,
}

/// The five tables, all 0 in a fresh domain. docs/RULES.md says what stands where.
pub struct Tables {
    pub ids: [u32; 4507],
    pub next: [u32; 4096],
    pub state: [u32; 4096],
    pub words: [u64; 85],
    pub guards: [u64; 1024],
}

/// Where two of the 64-bit words stand that a domain reads itself.
pub const RECORD_COUNT: usize = 0;
pub const COUNT: usize = 1;

macro_rules! tables {
    ($($name:ident, $length:ident: $word:ty;)*) => {
        extern "C" {
            fn kevrespil_start(
                $($name: *mut $word, $length: usize,)*
                thread: u32, kind: u32, a: u32, b: u32, c: u64,
            ) -> Reply;
            fn kevrespil_step($($name: *mut $word, $length: usize,)* thread: u32, flag: bool, clock: u64) -> Reply;
        }

        impl Tables {
            pub fn start(&mut self, thread: u32, kind: u32, a: u32, b: u32, c: u64) -> Reply {
                $(let ($name, $length) = (self.$name.as_mut_ptr(), self.$name.len());)*
                unsafe { kevrespil_start($($name, $length,)* thread, kind, a, b, c) }
            }

            pub fn step(&mut self, thread: u32, flag: bool, clock: u64) -> Reply {
                $(let ($name, $length) = (self.$name.as_mut_ptr(), self.$name.len());)*
                unsafe { kevrespil_step($($name, $length,)* thread, flag, clock) }
            }
        }
    };
}

tables! {
    ids, ids_length: u32;
    next, next_length: u32;
    state, state_length: u32;
    words, words_length: u64;
    guards, guards_length: u64;
}
