//! Finds the library and says how it is linked. README.md says where it is looked for and how programs then find it.
use std::env;
use std::ffi::OsString;
use std::fs;
use std::path::{Path, PathBuf};

const SHARED: &str = "libfermion.so";
const ARCHIVE: &str = "libfermion.a";
/// What a program that is linked with the installed shared object looks for.
const SONAME: &str = "libfermion.so.0";

fn main() {
    println!("cargo:rerun-if-changed=build.rs");
    println!("cargo:rerun-if-env-changed=FERMION_LIB_DIR");
    let here = PathBuf::from(env::var_os("CARGO_MANIFEST_DIR").unwrap());
    let out = PathBuf::from(env::var_os("OUT_DIR").unwrap());
    let found = folder(env::var_os("FERMION_LIB_DIR"), &here).and_then(|folder| {
        let library = library(&folder, &env::var("CARGO_CFG_TARGET_ARCH").unwrap())?;
        Ok((library, folder))
    });
    match found {
        Ok((library, folder)) => link(&library, &folder, &out),
        Err(sentence) => panic!("{sentence}"),
    }
}

/// The folder that is named, else that of the installation whose crate this is, else that of the repository.
pub fn folder(named: Option<OsString>, here: &Path) -> Result<PathBuf, String> {
    match named.filter(|named| !named.is_empty()).map(PathBuf::from) {
        Some(named) if named.is_absolute() => Ok(named),
        Some(named) => Err(relative(&named, here)),
        None if here.ends_with("share/fermion/rust") => Ok(here.join("../../../lib")),
        None => Ok(here.join("../../target/native")),
    }
}

/// What is said of a relative path. It is not followed: from here it may lead to another library than the one that is meant.
fn relative(named: &Path, here: &Path) -> String {
    format!(
        "FERMION_LIB_DIR is {}, a relative path, and must be an absolute one: cargo runs this script in {}, not in the \
         folder that cargo was started in",
        named.display(),
        here.display()
    )
}

#[derive(Debug, PartialEq)]
pub enum Library {
    Archive(PathBuf),
    Shared(PathBuf),
}

/// The archive where it can be linked, so that programs are whole without the shared object; else the shared object.
pub fn library(folder: &Path, processor: &str) -> Result<Library, String> {
    let (shared, archive) = (folder.join(SHARED), folder.join(ARCHIVE));
    if processor == "x86_64" && archive.exists() {
        Ok(Library::Archive(archive))
    } else if shared.exists() {
        Ok(Library::Shared(shared))
    } else {
        let unfit = if archive.exists() { " (libfermion.a is there, but it is for x86-64 alone)" } else { "" };
        Err(format!(
            "libfermion.so is not in {}{unfit}: run tools/shared_object.sh in the repository, or set FERMION_LIB_DIR to \
             the absolute path of the folder that holds it, which is PREFIX/lib after tools/install.sh PREFIX",
            folder.display()
        ))
    }
}

fn link(library: &Library, folder: &Path, out: &Path) {
    // For a build script of a program's own, as DEP_FERMION_LIB_DIR.
    println!("cargo:lib_dir={}", folder.canonicalize().expect("the folder can be read").display());
    println!("cargo:rustc-link-search=native={}", out.display());
    match library {
        Library::Archive(file) => {
            copy(file, out, &[ARCHIVE]);
            println!("cargo:rustc-link-lib=static=fermion");
        }
        Library::Shared(file) => {
            copy(file, out, &[SHARED, SONAME]);
            println!("cargo:rustc-link-lib=dylib=fermion");
        }
    }
}

/// Copies into cargo's own folder: cargo lets the programs that it starts find shared objects there, and nowhere else.
fn copy(library: &Path, out: &Path, names: &[&str]) {
    println!("cargo:rerun-if-changed={}", library.display());
    for name in names {
        fs::copy(library, out.join(name)).expect("the library can be copied");
    }
}
