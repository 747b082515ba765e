//! Compiles the C baselines, and links them and the archive of the crate desk_c, which `.ci/build` or the gate puts at
//! target/staticlib/libdesk.a.

use std::env;
use std::path::{Path, PathBuf};
use std::process::Command;

const FLAGS: [&str; 5] = ["-std=c11", "-O3", "-Wall", "-Wextra", "-Werror"];

/// The sources of the trusting gate, of the checking gate, and of the day program.
const TRUSTING: [&str; 3] = ["roster.c", "trusting.c", "trusting_settings.c"];
const CHECKING: [&str; 2] = ["checking.c", "checking_soundness.c"];
const DAY: &str = "day.c";

fn main() {
    let root = Path::new(env!("CARGO_MANIFEST_DIR"));
    let baselines = root.join("baselines");
    let built = PathBuf::from(env::var_os("OUT_DIR").expect("cargo sets OUT_DIR"));
    let object = |source: &str| compile(&baselines.join(source), &built);

    let trusting = TRUSTING.map(object);
    let checking = CHECKING.map(object);
    let archive = built.join("libbaselines.a");
    run(Command::new("ar")
        .arg("rcs")
        .arg(&archive)
        .args(trusting.iter().chain(&checking)));
    let program = built.join("baseline-day");
    run(Command::new("gcc")
        .arg(object(DAY))
        .args(&trusting)
        .arg("-o")
        .arg(&program));

    let proved = root.join("../target/staticlib");
    println!("cargo:rustc-env=BASELINE_DAY={}", program.display());
    println!("cargo:rustc-link-search=native={}", built.display());
    println!("cargo:rustc-link-lib=static=baselines");
    println!("cargo:rustc-link-search=native={}", proved.display());
    println!("cargo:rustc-link-lib=static=desk");
    println!("cargo:rerun-if-changed={}", baselines.display());
    println!(
        "cargo:rerun-if-changed={}",
        proved.join("libdesk.a").display()
    );
}

/// The object file of a source.
fn compile(source: &Path, built: &Path) -> PathBuf {
    let name = source.file_name().expect("a source has a name");
    let object = built.join(name).with_extension("o");
    run(Command::new("gcc")
        .args(FLAGS)
        .arg("-c")
        .arg(source)
        .arg("-o")
        .arg(&object));
    object
}

fn run(command: &mut Command) {
    let status = command.status().expect("the command starts");
    assert!(status.success(), "{command:?} failed");
}
