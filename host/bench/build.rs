//! Compiles baseline.c three times, and links all: for any machine of the architecture, by blocks and by rows, and for this machine.
use std::path::{Path, PathBuf};
use std::process::Command;

/// The name that tells the functions of a build apart, and its options beside -O3.
const VARIANTS: [(&str, &[&str]); 3] = [("o3", &[]), ("rows", &["-DBLOCK=0"]), ("native", &["-march=native"])];

fn main() {
    println!("cargo:rerun-if-changed=build.rs");
    println!("cargo:rerun-if-changed=baseline.c");
    let folder = PathBuf::from(std::env::var_os("OUT_DIR").expect("cargo sets OUT_DIR"));
    let objects = VARIANTS.map(|(variant, options)| compile(&folder, variant, options));
    // An archive of an earlier build could have members that are gone.
    let archive = folder.join("libbaseline.a");
    let _ = std::fs::remove_file(&archive);
    run(Command::new("ar").arg("crs").arg(&archive).args(&objects));
    println!("cargo:rustc-link-search=native={}", folder.display());
    println!("cargo:rustc-link-lib=static=baseline");
}

fn compile(folder: &Path, variant: &str, options: &[&str]) -> PathBuf {
    let object = folder.join(format!("{variant}.o"));
    let mut gcc = Command::new("gcc");
    gcc.args(["-std=c11", "-O3", "-Wall", "-Wextra", "-fPIE"]).args(options);
    run(gcc
        .arg(format!("-DVARIANT={variant}"))
        .args(["-c", "baseline.c", "-o"])
        .arg(&object));
    object
}

fn run(command: &mut Command) {
    let name = command.get_program().to_string_lossy().into_owned();
    match command.status() {
        Ok(status) if status.success() => {}
        Ok(status) => panic!("{name} failed on the benchmark's baseline.c: {status}"),
        Err(error) => panic!("the benchmark needs {name} to build its C baseline, and it could not be run: {error}"),
    }
}
