// The original, haphazard 0.1.8, as build.rs patched it, and beside it the few lines that must see its private fields.
// It is published code, compiled as it is; what compilers and clippy say of it is not ours to mend.
#![allow(warnings, clippy::all)]

include!(concat!(env!("OUT_DIR"), "/lib.rs"));

pub mod domain {
    include!(concat!(env!("OUT_DIR"), "/domain.rs"));
    pub mod beside;
}

pub mod hazard {
    include!(concat!(env!("OUT_DIR"), "/hazard.rs"));
    pub mod beside;
}

pub mod pointer {
    include!(concat!(env!("OUT_DIR"), "/pointer.rs"));
}

pub mod record {
    include!(concat!(env!("OUT_DIR"), "/record.rs"));
}

pub mod sync {
    include!(concat!(env!("OUT_DIR"), "/sync.rs"));
}
