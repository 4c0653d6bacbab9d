//! Links the static library of the proved entries: `libexports.a`, as
//! `tools/build-library` makes it, or `libarf.a`, as `tools/install` names it.
//! `ARF_LIB_DIR` is the folder to look in, an absolute path; without it, that is
//! the repository's `target/staticlib`.

use std::env;
use std::path::{Path, PathBuf};
use std::process::ExitCode;

fn main() -> ExitCode {
    println!("cargo:rerun-if-env-changed=ARF_LIB_DIR");
    let target = |name| env::var(name).unwrap_or_default();
    let (machine, system) = (
        target("CARGO_CFG_TARGET_ARCH"),
        target("CARGO_CFG_TARGET_OS"),
    );
    if (machine.as_str(), system.as_str()) != ("x86_64", "linux") {
        eprintln!("arf: the static library is for x86-64 Linux, and not for {machine} {system}");
        return ExitCode::FAILURE;
    }
    let folder = match env::var_os("ARF_LIB_DIR") {
        Some(folder) if Path::new(&folder).is_relative() => {
            eprintln!("arf: ARF_LIB_DIR has to be an absolute path, and not {folder:?}");
            return ExitCode::FAILURE;
        }
        Some(folder) => PathBuf::from(folder),
        None => PathBuf::from(env!("CARGO_MANIFEST_DIR")).join("../../target/staticlib"),
    };
    for name in ["arf", "exports"] {
        let library = folder.join(format!("lib{name}.a"));
        println!("cargo:rerun-if-changed={}", library.display());
        if library.exists() {
            println!("cargo:rustc-link-search=native={}", folder.display());
            println!("cargo:rustc-link-lib=static={name}");
            return ExitCode::SUCCESS;
        }
    }
    eprintln!(
        "arf: {} has no libarf.a or libexports.a: run tools/build-library in the repository, \
         or set ARF_LIB_DIR to the folder that has it",
        folder.display()
    );
    ExitCode::FAILURE
}
