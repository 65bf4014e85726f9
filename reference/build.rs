// Links the proved static library when CABINET_LIB names the folder that holds it, and looks whether it counts
// partners and sweeps: an older one, which does not, can still be timed. Beside it an earlier one when CABINET_EARLIER
// names the folder of that.

use std::process::Command;

/// What is set where the library has a call of this name.
const LATER_CALLS: [(&str, &[u8]); 2] = [
    ("counting", b"cabinet_partners"),
    ("sweeping", b"cabinet_sweep"),
];

/// The folder that a variable names, if it is set, with the library in it.
fn library_folder(variable: &str) -> Option<String> {
    println!("cargo::rerun-if-env-changed={variable}");
    let folder = std::env::var_os(variable).filter(|folder| !folder.is_empty())?;
    let folder = std::fs::canonicalize(&folder);
    let folder = folder.unwrap_or_else(|_| panic!("{variable} names no folder"));
    let folder = folder.display().to_string();
    println!("cargo::rerun-if-changed={folder}/libcabinet.a");
    Some(folder)
}

fn link_present() {
    let Some(folder) = library_folder("CABINET_LIB") else {
        return;
    };
    println!("cargo::rustc-link-search={folder}");
    println!("cargo::rustc-link-lib=static=cabinet");
    println!("cargo::rustc-cfg=proved");
    let library = std::fs::read(format!("{folder}/libcabinet.a")).expect("libcabinet.a");
    for (set, name) in LATER_CALLS {
        if library.windows(name.len()).any(|bytes| bytes == name) {
            println!("cargo::rustc-cfg={set}");
        }
    }
}

/// Both libraries have the same names: those of the earlier one get `earlier_` in front, in a copy.
fn link_earlier() {
    let Some(folder) = library_folder("CABINET_EARLIER") else {
        return;
    };
    let library = format!("{folder}/libcabinet.a");
    let made = std::env::var("OUT_DIR").expect("cargo names a folder for what is made");
    let mut listing = Command::new("nm");
    listing.args(["--defined-only", "--extern-only", "--format=posix"]);
    let listed = listing.arg(&library).output().expect("nm lists the names");
    let listed = String::from_utf8(listed.stdout).expect("names are text");
    let mut renaming = Command::new("objcopy");
    for line in listed.lines() {
        // A name, its kind and where it stands; other lines name the parts of the library.
        let mut words = line.split_whitespace();
        if let (Some(name), Some(_)) = (words.next(), words.next()) {
            renaming.arg(format!("--redefine-sym={name}=earlier_{name}"));
        }
    }
    let renamed = renaming.args([library, format!("{made}/libearlier.a")]);
    assert!(renamed.status().expect("objcopy renames").success());
    println!("cargo::rustc-link-search={made}");
    println!("cargo::rustc-link-lib=static=earlier");
    println!("cargo::rustc-cfg=earlier");
}

fn main() {
    println!("cargo::rustc-check-cfg=cfg(proved, counting, sweeping, earlier)");
    println!("cargo::rerun-if-changed=build.rs");
    link_present();
    link_earlier();
}
