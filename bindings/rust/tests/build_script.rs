//! Where build.rs looks for the library, and which one it takes.
#[allow(dead_code)]
#[path = "../build.rs"]
mod build;

use std::fs;
use std::path::{Path, PathBuf};

use build::{folder, library, Library};

/// An empty folder with these files in it, all of them empty.
fn holding(name: &str, files: &[&str]) -> PathBuf {
    let folder = Path::new(env!("CARGO_TARGET_TMPDIR")).join(name);
    let _ = fs::remove_dir_all(&folder);
    fs::create_dir_all(&folder).unwrap();
    for file in files {
        fs::write(folder.join(file), []).unwrap();
    }
    folder
}

#[test]
fn a_folder_that_is_named_comes_first() {
    let (installed, repository) = (Path::new("/opt/f/share/fermion/rust"), Path::new("/home/f/bindings/rust"));
    for here in [installed, repository] {
        assert_eq!(folder(Some("/elsewhere".into()), here), Ok("/elsewhere".into()));
    }
    assert_eq!(folder(Some("".into()), installed), folder(None, installed));
    assert_eq!(folder(None, installed), Ok("/opt/f/share/fermion/rust/../../../lib".into()));
    assert_eq!(folder(None, repository), Ok("/home/f/bindings/rust/../../target/native".into()));
}

#[test]
fn of_a_relative_path_that_is_said_first() {
    // "src" is there, seen from the folder that cargo runs this test and the build script in: it is refused all the same.
    for named in ["lib", "./lib", "../lib", "src"] {
        let sentence = folder(Some(named.into()), Path::new("/opt/f/share/fermion/rust")).unwrap_err();
        let start = format!("FERMION_LIB_DIR is {named}, a relative path, and must be an absolute one: cargo runs");
        assert!(sentence.starts_with(&start), "{sentence}");
        assert!(sentence.contains(" in /opt/f/share/fermion/rust, "), "{sentence}");
    }
}

#[test]
fn the_archive_is_taken_on_x86_64_alone() {
    let both = holding("both", &["libfermion.so", "libfermion.a"]);
    assert_eq!(library(&both, "x86_64"), Ok(Library::Archive(both.join("libfermion.a"))));
    assert_eq!(library(&both, "aarch64"), Ok(Library::Shared(both.join("libfermion.so"))));
    let shared = holding("shared", &["libfermion.so"]);
    for processor in ["x86_64", "aarch64"] {
        assert_eq!(library(&shared, processor), Ok(Library::Shared(shared.join("libfermion.so"))));
    }
}

#[test]
fn where_there_is_none_a_sentence_says_what_to_do() {
    let none = holding("none", &[]);
    let archive = holding("archive", &["libfermion.a"]);
    for (folder, processor) in [(&none, "x86_64"), (&none, "aarch64"), (&archive, "aarch64")] {
        let sentence = library(folder, processor).unwrap_err();
        assert!(sentence.starts_with(&format!("libfermion.so is not in {}", folder.display())));
        assert!(sentence.contains("run tools/shared_object.sh") && sentence.contains("set FERMION_LIB_DIR"));
        assert_eq!(sentence.contains("for x86-64 alone"), folder == &archive);
    }
}
