//! Links the static libraries `abi` and `abi_inner`: those in the folder that ENERGY_BOOK_LIB_DIR names, or else those that
//! `tools/staticlib` proved and built, which is called where an archive is missing or older than a source of some crate or `crates.txt`.

use std::path::{Path, PathBuf};
use std::process::Command;
use std::time::SystemTime;
use std::{env, fs, io};

const LIBRARIES: [&str; 2] = ["abi", "abi_inner"];

fn main() {
    println!("cargo:rerun-if-env-changed=ENERGY_BOOK_LIB_DIR");
    let folder = match env::var_os("ENERGY_BOOK_LIB_DIR") {
        Some(folder) => {
            let folder = PathBuf::from(folder);
            for name in LIBRARIES {
                println!("cargo:rerun-if-changed={}", folder.join(archive(name)).display());
            }
            folder
        }
        None => built(),
    };
    println!("cargo:rustc-link-search=native={}", folder.display());
    for name in LIBRARIES {
        println!("cargo:rustc-link-lib=static={name}");
    }
}

fn archive(name: &str) -> String {
    format!("lib{name}.a")
}

/// Builds the archives that are missing or old, and keeps copies beside what cargo builds, which stay as they are when others are built.
fn built() -> PathBuf {
    let root = Path::new(&env::var_os("CARGO_MANIFEST_DIR").unwrap()).join("../..");
    let sources = sources(&root).expect("the sources can be read");
    for path in &sources {
        println!("cargo:rerun-if-changed={}", path.display());
    }
    let changed = sources.iter().map(|path| newest(path).expect("the sources can be read")).max().unwrap();
    let folder = PathBuf::from(env::var_os("OUT_DIR").unwrap());
    for name in LIBRARIES {
        let stands = root.join("target/staticlib").join(archive(name));
        if !modified(&stands).is_ok_and(|time| time >= changed) {
            prove(&root, name);
        }
        fs::copy(stands, folder.join(archive(name))).expect("the archive that tools/staticlib wrote");
    }
    folder
}

/// `crates.txt` and the folders of each crate that hold its sources; beside them lies what `rt` makes.
fn sources(root: &Path) -> io::Result<Vec<PathBuf>> {
    let mut found = vec![root.join("crates.txt")];
    for entry in fs::read_dir(root.join("crates"))? {
        let folder = entry?.path();
        found.extend(["src", "specs", "proofs"].map(|part| folder.join(part)).into_iter().filter(|part| part.exists()));
    }
    Ok(found)
}

fn modified(path: &Path) -> io::Result<SystemTime> {
    fs::metadata(path)?.modified()
}

/// When the last change was made of a file, or of a folder or anything in it.
fn newest(path: &Path) -> io::Result<SystemTime> {
    let mut last = modified(path)?;
    if path.is_dir() {
        for entry in fs::read_dir(path)? {
            last = last.max(newest(&entry?.path())?);
        }
    }
    Ok(last)
}

fn prove(root: &Path, name: &str) {
    let run = Command::new(root.join("tools/staticlib")).arg(name).output().expect("tools/staticlib can be run");
    if !run.status.success() {
        let said = [run.stdout, run.stderr].concat();
        panic!(
            "`tools/staticlib {name}` failed; it needs `rt` on the PATH, or else ENERGY_BOOK_LIB_DIR names a folder that has both archives:\n{}",
            String::from_utf8_lossy(&said)
        );
    }
}
