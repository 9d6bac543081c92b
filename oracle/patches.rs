// The patches that build.rs applies to the original, each with its reason. docs/ORACLE.md explains them at length.

/// What a patch does to the text of one file.
pub enum Change {
    /// `old` stands in the file exactly `times` times; each becomes `new`.
    Replace { times: usize, old: &'static str, new: &'static str },
    /// Exactly `times` lines of the file begin with `prefix`; they go.
    DropLines { times: usize, prefix: &'static str },
}

pub struct Patch {
    pub file: &'static str,
    pub name: &'static str,
    pub change: Change,
}

impl Patch {
    /// The text with the patch applied; a sentence that names the patch if it does not fit exactly.
    pub fn apply(&self, text: &str) -> Result<String, String> {
        let (times, what) = match self.change {
            Change::Replace { times, old, .. } => (times, old),
            Change::DropLines { times, prefix } => (times, prefix),
        };
        let found = match self.change {
            Change::Replace { .. } => text.matches(what).count(),
            Change::DropLines { .. } => text.lines().filter(|l| l.starts_with(what)).count(),
        };
        if found != times {
            let Patch { name, file, .. } = self;
            return Err(format!(
                "Patch '{name}' of {file} no longer fits: {times} times expected, {found} found: {what:?}."
            ));
        }
        Ok(match self.change {
            Change::Replace { old, new, .. } => text.replace(old, new),
            Change::DropLines { prefix, .. } => text.split_inclusive('\n').filter(|l| !l.starts_with(prefix)).collect(),
        })
    }
}

const fn replace(file: &'static str, name: &'static str, times: usize, old: &'static str, new: &'static str) -> Patch {
    Patch { file, name, change: Change::Replace { times, old, new } }
}

const fn drop_lines(file: &'static str, name: &'static str, times: usize, prefix: &'static str) -> Patch {
    Patch { file, name, change: Change::DropLines { times, prefix } }
}

/// The original's files that are read, each with the checksum (FNV-1a) of what 0.1.8 published. Those without a patch
/// of their own are compiled as they are.
pub const FILES: [(&str, u64); 6] = [
    ("lib.rs", 0x5274_3fd5_82ea_0436),
    ("domain.rs", 0xe710_5492_d788_2625),
    ("hazard.rs", 0x7cf8_61ea_a767_7a38),
    ("record.rs", 0xd68f_4ee6_45ff_a802),
    ("pointer.rs", 0x5316_40c4_1942_4914),
    ("sync.rs", 0xcc76_bbd4_7e9c_4a3c),
];

pub fn checksum(text: &str) -> u64 {
    text.bytes().fold(0xcbf2_9ce4_8422_2325, |sum, byte| (sum ^ u64::from(byte)).wrapping_mul(0x100_0000_01b3))
}

pub const PATCHES: &[Patch] = &[
    // ---- The original becomes a module of the oracle instead of a crate.
    drop_lines("lib.rs", "module-docs", 128, "//!"),
    drop_lines("lib.rs", "module-attributes", 5, "#!["),
    // src/original/mod.rs declares the modules, so that the files come from OUT_DIR.
    drop_lines("lib.rs", "module-declarations", 5, "mod "),
    replace("lib.rs", "module-paths", 11, "crate::", "crate::original::"),
    replace("domain.rs", "module-paths", 17, "crate::", "crate::original::"),
    replace("hazard.rs", "module-paths", 9, "crate::", "crate::original::"),
    replace("record.rs", "module-paths", 1, "crate::", "crate::original::"),
    // ---- Atomics come from the shim; its fence does nothing, so that barriers take no step, and yielding does
    // nothing.
    replace(
        "sync.rs",
        "atomics",
        1,
        "pub(crate) use core::sync::atomic::{fence,",
        "pub(crate) use crate::shim::{fence,",
    ),
    replace("sync.rs", "atomic-u64", 1, "pub use core::sync::atomic::AtomicU64;", "pub use crate::shim::AtomicU64;"),
    replace("sync.rs", "yield", 1, "pub(crate) use std::thread::yield_now;", "pub(crate) use crate::shim::yield_now;"),
    // ---- `next` takes no step of its own: it is a Link, whose accesses wait for no turn.
    replace(
        "record.rs",
        "record-next",
        1,
        "pub(crate) next: AtomicPtr<HazPtrRecord>,",
        "pub(crate) next: crate::shim::Link<HazPtrRecord>,",
    ),
    replace(
        "domain.rs",
        "record-next-new",
        1,
        "            next: AtomicPtr::new(core::ptr::null_mut()),
            available_next:",
        "            next: crate::shim::Link::new(core::ptr::null_mut()),
            available_next:",
    ),
    replace("domain.rs", "retired-next", 1, "    next: AtomicPtr<Retired>,", "    next: crate::shim::Link<Retired>,"),
    replace(
        "domain.rs",
        "retired-next-new",
        1,
        "            deleter,
            next: AtomicPtr::new(",
        "            deleter,
            next: crate::shim::Link::new(",
    ),
    // ---- Where a step begins before its access: what is written or taken here belongs to the access that follows.
    // N1 takes the row in the step that loads the list head. The row gets its number then.
    replace(
        "domain.rs",
        "step-n1",
        1,
        "        let hazptr = Box::into_raw(Box::new(HazPtrRecord {",
        "        crate::shim::open(crate::shim::Kind::NewRecord);
        let hazptr = beside::numbered(Box::new(HazPtrRecord {",
    ),
    // N2 writes the record's `next` in its exchange's step, won or lost.
    replace(
        "domain.rs",
        "step-n2",
        1,
        "            // Safety: hazptr was never shared, so &mut is ok.
",
        "            crate::shim::open(crate::shim::Kind::LinkRecord);
            // Safety: hazptr was never shared, so &mut is ok.
",
    ),
    // T2, and the push of the kept list: the tail's `next` is written in its exchange's step, won or lost.
    replace(
        "domain.rs",
        "step-push",
        1,
        "            // Safety: we haven't moved anything in Retire,",
        "            crate::shim::open(crate::shim::Kind::LinkNode);
            // Safety: we haven't moved anything in Retire,",
    ),
    // ---- Steps that make no atomic access in the original.
    // One step examines one node.
    replace(
        "domain.rs",
        "step-examine",
        1,
        "                // Safety: All accessors only access the head,",
        "                crate::shim::step(crate::shim::Kind::Examine);
                // Safety: All accessors only access the head,",
    ),
    // One step reclaims one node.
    replace(
        "domain.rs",
        "step-reclaim",
        1,
        "            let next = unsafe { &*retired }.next.load(Ordering::Relaxed);",
        "            crate::shim::step(crate::shim::Kind::Reclaim);
            let next = unsafe { &*retired }.next.load(Ordering::Relaxed);",
    ),
    // One last step of shutdown frees the records.
    replace(
        "domain.rs",
        "step-free-records",
        1,
        "        let mut node: *mut HazPtrRecord = self.hazptrs.head.with_mut(|p| *p);",
        "        crate::shim::step(crate::shim::Kind::FreeRecords);
        let mut node: *mut HazPtrRecord = self.hazptrs.head.with_mut(|p| *p);",
    ),
    // ---- Clock and address are those of the replay.
    replace(
        "domain.rs",
        "clock",
        1,
        r#"        u64::try_from(
            std::time::SystemTime::now()
                .duration_since(std::time::UNIX_EPOCH)
                .expect("system time is set to before the epoch")
                .as_nanos(),
        )
        .expect("system time is too far into the future")
"#,
        "        crate::shim::now()
",
    ),
    replace(
        "domain.rs",
        "shard-address",
        1,
        "        (input as usize >> IGNORED_LOW_BITS) & SHARD_MASK",
        "        (beside::given_address(input) >> IGNORED_LOW_BITS) & SHARD_MASK",
    ),
    // ---- A `Retired` stands in its node, so that equal heads are equal nodes.
    replace(
        "domain.rs",
        "retired-put",
        1,
        "        let retired = Box::into_raw(retired);",
        "        let retired = beside::put(retired);",
    ),
    replace(
        "domain.rs",
        "retired-take",
        1,
        "            let n = unsafe { Box::from_raw(retired) };",
        "            let n = unsafe { beside::take(retired) };",
    ),
];
