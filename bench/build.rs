//! Compiles the OpenMP side and links it, the static library of the proved engine and the C code under that.

use std::path::PathBuf;
use std::process::Command;
use std::{env, fs};

fn main() {
    let out = PathBuf::from(env::var("OUT_DIR").unwrap());
    let object = out.join("openmp.o");
    let archive = out.join("libopenmp_lives.a");
    run(Command::new("gcc").args(["-O2", "-fopenmp", "-Wall", "-Wextra", "-c", "src/openmp.c", "-o"]).arg(&object));
    let _ = fs::remove_file(&archive);
    run(Command::new("ar").arg("rcs").arg(&archive).arg(&object));

    let kit = env::var("RATTLE_KIT").expect("start the benchmark by bench/run, which sets RATTLE_KIT");
    println!("cargo:rustc-link-search=native={}", out.display());
    println!("cargo:rustc-link-search=native=../crates/lives/out");
    println!("cargo:rustc-link-search=native={kit}/c");
    println!("cargo:rustc-link-lib=static=openmp_lives");
    println!("cargo:rustc-link-lib=static=lives");
    println!("cargo:rustc-link-lib=static=libc_c");
    println!("cargo:rustc-link-lib=gomp");
    println!("cargo:rerun-if-changed=src/openmp.c");
    println!("cargo:rerun-if-changed=../crates/lives/out/liblives.a");
    println!("cargo:rerun-if-env-changed=RATTLE_KIT");
}

fn run(command: &mut Command) {
    let status = command.status().unwrap_or_else(|why| panic!("{command:?}: {why}"));
    assert!(status.success(), "{command:?}: {status}");
}
