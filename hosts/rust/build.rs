//! Links the ledger's archive, with the feature `linked` only.
//!
//! The archive is `../../target/staticlib/libval.a`, or the file that the
//! environment variable VAL_ARCHIVE names. A trial link finds out whether it
//! can stand in a position-independent program; otherwise `-no-pie` is passed.

use std::env;
use std::fs;
use std::path::{Path, PathBuf};
use std::process::Command;

const CALLS: [&str; 10] = [
    "val_check",
    "val_empty",
    "val_act",
    "val_merge",
    "val_statement",
    "val_payments",
    "val_month",
    "val_balances",
    "val_lookup",
    "val_raise",
];

fn main() {
    println!("cargo:rerun-if-changed=build.rs");
    println!("cargo:rerun-if-env-changed=VAL_ARCHIVE");
    if env::var_os("CARGO_FEATURE_LINKED").is_none() {
        return;
    }

    let archive = match env::var_os("VAL_ARCHIVE") {
        Some(path) => PathBuf::from(path),
        None => Path::new(&env::var_os("CARGO_MANIFEST_DIR").unwrap())
            .join("../../target/staticlib/libval.a"),
    };
    println!("cargo:rerun-if-changed={}", archive.display());

    // A copy under the name the linker looks for, whatever the file is called.
    let out = PathBuf::from(env::var_os("OUT_DIR").unwrap());
    let copy = out.join("libval.a");
    if let Err(error) = fs::copy(&archive, &copy) {
        fail(&format!(
            "cannot read the ledger's archive {}: {error}\n\
             Build it first (`tools/build` in the root of the repository), \
             or name another with VAL_ARCHIVE=/path/to/libval.a.",
            archive.display()
        ));
    }

    if let Err(pie) = trial_link(&out, &copy, "-pie") {
        match trial_link(&out, &copy, "-no-pie") {
            Ok(()) => println!("cargo:rustc-link-arg=-no-pie"),
            Err(_) => fail(&format!("{} does not link:\n{pie}", archive.display())),
        }
    }
    println!("cargo:rustc-link-search=native={}", out.display());
    println!("cargo:rustc-link-lib=static=val");
}

/// Links a C program that needs all the calls; the linker's words on failure.
fn trial_link(out: &Path, archive: &Path, pie: &str) -> Result<(), String> {
    let source = out.join("trial.c");
    let mut text = String::new();
    for call in CALLS {
        text += &format!("extern char {call}[];\n");
    }
    text += &format!(
        "char *volatile calls[] = {{{}}};\nint main(void) {{ return calls[0] == 0; }}\n",
        CALLS.join(", ")
    );
    fs::write(&source, text).unwrap();
    let position = if pie == "-pie" { "-fPIE" } else { "-fno-pie" };
    let done = Command::new(env::var_os("CC").unwrap_or_else(|| "cc".into()))
        .args([position, pie])
        .arg("-o")
        .arg(out.join("trial"))
        .arg(&source)
        .arg(archive)
        .output()
        .map_err(|error| format!("cannot run the C compiler: {error}"))?;
    if done.status.success() {
        Ok(())
    } else {
        Err(String::from_utf8_lossy(&done.stderr).into_owned())
    }
}

fn fail(message: &str) -> ! {
    eprintln!("\n{message}\n");
    std::process::exit(1)
}
