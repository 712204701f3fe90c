//! Links the proved archive libdfb.a, which `tools/dist` makes, and compiles the plain C of ../bench for tests and benchmark.
//!
//! DFB_LIB names the archive's folder where it is not ../dist.
use std::env;
use std::path::{Path, PathBuf};
use std::process::Command;

/// Compilers of the plain C, each where it is there.
const COMPILERS: [&str; 2] = ["gcc", "clang"];

fn main() {
    let package = PathBuf::from(env::var("CARGO_MANIFEST_DIR").unwrap());
    link_archive(&package);
    let out = PathBuf::from(env::var("OUT_DIR").unwrap());
    for compiler in COMPILERS {
        println!("cargo:rustc-check-cfg=cfg({compiler})");
        compile_plain(compiler, &package.join("../bench/plain.c"), &out.join(format!("plain_{compiler}.o")));
    }
}

fn link_archive(package: &Path) {
    println!("cargo:rerun-if-env-changed=DFB_LIB");
    let folder = env::var_os("DFB_LIB").map_or(package.join("../dist"), PathBuf::from);
    let archive = folder.join("libdfb.a");
    if !archive.exists() {
        panic!("{} is not there: run `tools/dist`, or name its folder in DFB_LIB", archive.display());
    }
    println!("cargo:rerun-if-changed={}", archive.display());
    println!("cargo:rustc-link-search=native={}", folder.canonicalize().unwrap().display());
    println!("cargo:rustc-link-lib=static=dfb");
}

/// Compiles the plain C with its names under the compiler's, gcc_tick and so on; `cfg(gcc)` says that they are there.
fn compile_plain(compiler: &str, source: &Path, object: &Path) {
    println!("cargo:rerun-if-changed={}", source.display());
    let options = ["-std=c99", "-O3", "-Wall", "-Wextra", "-c", "-o"];
    let names = format!("-DPLAIN(name)={compiler}_##name");
    match Command::new(compiler).args(options).arg(object).arg(names).arg(source).status() {
        Ok(status) if status.success() => {
            println!("cargo:rustc-cfg={compiler}");
            println!("cargo:rustc-link-arg-tests={}", object.display());
            println!("cargo:rustc-link-arg-benches={}", object.display());
        }
        Ok(_) => panic!("{compiler} does not compile {}", source.display()),
        Err(_) => println!("cargo:warning={compiler} is not there: its plain C is left out of tests and benchmark"),
    }
}
