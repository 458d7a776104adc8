//! Compiles the plain C in `plain/`, each warning an error.

use std::env;
use std::process::Command;

const FLAGS: [&str; 5] = ["-std=c11", "-O3", "-Wall", "-Wextra", "-Werror"];
const SOURCES: [&str; 3] = ["practice", "step", "report"];

fn run(command: &mut Command) {
    let status = command.status().unwrap_or_else(|fault| panic!("{command:?}: {fault}"));
    assert!(status.success(), "{command:?}: {status}");
}

fn main() {
    let out = env::var("OUT_DIR").expect("the folder for what is built");
    let objects = SOURCES.map(|name| format!("{out}/{name}.o"));
    for (name, object) in SOURCES.iter().zip(&objects) {
        run(Command::new("cc").args(FLAGS).args(["-c", &format!("plain/{name}.c"), "-o", object]));
    }
    run(Command::new("ar").args(["crs", &format!("{out}/libplain.a")]).args(&objects));
    println!("cargo:rerun-if-changed=plain");
    println!("cargo:rustc-link-search=native={out}");
    println!("cargo:rustc-link-lib=static=plain");
}
