//! Tells the linker where libhplog.a is, in the directory that HPLOG_LIB names, and builds the benchmarks' peer in C.

use std::process::Command;

/// Compiles one file of C into a static library of its own.
fn archive(source: &str, name: &str) {
    let directory = std::env::var("OUT_DIR").expect("cargo says where");
    let (object, library) = (format!("{directory}/{name}.o"), format!("{directory}/lib{name}.a"));
    let compiled = Command::new("gcc").args(["-std=c99", "-O3", "-c", source, "-o", &object]).status();
    assert!(compiled.is_ok_and(|status| status.success()), "gcc {source}");
    let archived = Command::new("ar").args(["rcs", &library, &object]).status();
    assert!(archived.is_ok_and(|status| status.success()), "ar {library}");
    println!("cargo:rustc-link-search=native={directory}");
    println!("cargo:rerun-if-changed={source}");
}

/// Whether a header is there, so that its library can be a peer.
fn installed(header: &str) -> bool {
    let probe = format!("#include <stddef.h>\n#include <{header}>\n");
    let file = format!("{}/probe.c", std::env::var("OUT_DIR").expect("cargo says where"));
    std::fs::write(&file, probe).expect("room for a line");
    Command::new("gcc")
        .args(["-fsyntax-only", &file])
        .stderr(std::process::Stdio::null())
        .status()
        .is_ok_and(|s| s.success())
}

fn main() {
    println!("cargo:rerun-if-env-changed=HPLOG_LIB");
    if let Ok(directory) = std::env::var("HPLOG_LIB") {
        println!("cargo:rustc-link-search=native={directory}");
        println!("cargo:rerun-if-changed={directory}/libhplog.a");
    }
    println!("cargo:rustc-check-cfg=cfg(has_libdeflate)");
    println!("cargo:rustc-check-cfg=cfg(has_isal)");
    if std::env::var_os("CARGO_FEATURE_BENCH").is_some() {
        archive("src/bin/bench/plain.c", "plain");
        for (header, has) in [("libdeflate.h", "has_libdeflate"), ("isa-l/crc.h", "has_isal")] {
            if installed(header) {
                println!("cargo:rustc-cfg={has}");
            }
        }
    }
}
