// Reads the original, applies the patches of patches.rs and writes the result to OUT_DIR for src/original to include.

mod patches;

use patches::{checksum, FILES, PATCHES};
use std::path::{Path, PathBuf};
use std::{env, fs, process};

fn main() {
    println!("cargo::rerun-if-env-changed=HAPHAZARD_SRC");
    println!("cargo::rerun-if-changed=build.rs");
    println!("cargo::rerun-if-changed=patches.rs");
    let source = source();
    let target = PathBuf::from(variable("OUT_DIR"));
    for (file, published) in FILES {
        let path = source.join(file);
        println!("cargo::rerun-if-changed={}", path.display());
        let mut text = fs::read_to_string(&path).unwrap_or_else(|e| stop(&format!("{file} cannot be read: {e}.")));
        // Another edition, or one changed on purpose, may still fit all patches.
        if checksum(&text) != published {
            println!("cargo::warning={file} is not that of haphazard 0.1.8.");
        }
        for patch in PATCHES.iter().filter(|p| p.file == file) {
            text = patch.apply(&text).unwrap_or_else(|sentence| stop(&sentence));
        }
        fs::write(target.join(file), text).unwrap_or_else(|e| stop(&format!("{file} cannot be written: {e}.")));
    }
    if let Some(patch) = PATCHES.iter().find(|p| FILES.iter().all(|(file, _)| p.file != *file)) {
        stop(&format!("Patch '{}' is for {}, which is not read.", patch.name, patch.file));
    }
}

/// The directory with the original's files: HAPHAZARD_SRC, or the one beside the repository; either may hold them in
/// `src`.
fn source() -> PathBuf {
    let given = match env::var_os("HAPHAZARD_SRC").filter(|d| !d.is_empty()) {
        Some(directory) => PathBuf::from(directory),
        None => Path::new(&variable("CARGO_MANIFEST_DIR")).join("../../shared/docs/src"),
    };
    [given.join("src"), given.clone()].into_iter().find(|d| d.join("domain.rs").is_file()).unwrap_or_else(|| {
        stop(&format!("The original is not in {}; set HAPHAZARD_SRC to haphazard 0.1.8's directory.", given.display()))
    })
}

fn variable(name: &str) -> String {
    env::var(name).unwrap_or_else(|_| stop(&format!("{name} is not set.")))
}

fn stop(sentence: &str) -> ! {
    eprintln!("oracle: {sentence}");
    process::exit(1)
}
