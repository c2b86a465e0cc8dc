// Links the static library of crate `workloads` and the C part of the toolchain, where bench/run says they are.
use std::env::var;

fn main() {
    for name in ["WORKLOADS_LIB", "RATTLE_LIB"] {
        println!("cargo::rerun-if-env-changed={name}");
        match var(name) {
            Ok(folder) => println!("cargo::rustc-link-search=native={folder}"),
            Err(_) => panic!("{name} is not set: build by bench/run"),
        }
    }
    if let Ok(folder) = var("WORKLOADS_LIB") {
        println!("cargo::rerun-if-changed={folder}/libworkloads.a");
    }
    println!("cargo::rustc-link-lib=static=workloads");
    println!("cargo::rustc-link-lib=static=libc_c");
}
