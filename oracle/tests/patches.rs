// A patch that no longer fits is named.

#[path = "../patches.rs"]
mod patches;

use patches::{checksum, Change, FILES, PATCHES};

#[test]
fn a_patch_that_does_not_fit_is_named() {
    for patch in PATCHES {
        assert!(FILES.iter().any(|(file, _)| patch.file == *file), "{} is of no file that is read", patch.name);
        let sentence = patch.apply("something else\n").unwrap_err();
        assert!(sentence.contains(patch.name) && sentence.contains(patch.file), "{sentence}");
        // Once too often is no fit either.
        let (Change::Replace { times, old: text, .. } | Change::DropLines { times, prefix: text }) = patch.change;
        let line = format!("{text}\n");
        assert!(patch.apply(&line.repeat(times)).is_ok(), "{}", patch.name);
        assert!(patch.apply(&line.repeat(times + 1)).is_err(), "{}", patch.name);
    }
}

#[test]
fn patches_of_one_file_have_names_of_their_own() {
    for (i, patch) in PATCHES.iter().enumerate() {
        let same = PATCHES[i + 1..].iter().any(|p| p.file == patch.file && p.name == patch.name);
        assert!(!same, "{} of {}", patch.name, patch.file);
    }
}

#[test]
fn the_checksum_is_fnv_1a() {
    assert_eq!((checksum(""), checksum("a")), (0xcbf2_9ce4_8422_2325, 0xaf63_dc4c_8601_ec8c));
}
