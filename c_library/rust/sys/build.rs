// SPDX-FileCopyrightText: 2026 The etherparse_transport developers
// SPDX-License-Identifier: MIT OR Apache-2.0
//! Tells the linker where the library is: in the folder that `ETHERPARSE_TRANSPORT_C_LIB` names, or where pkg-config finds it. If
//! neither finds it, the linker looks in its own folders. The feature `shared` links the shared library.
use std::env;
use std::process::Command;

/// The folder of the installed library with the interface of this crate.
fn installed() -> Option<String> {
    println!("cargo:rerun-if-env-changed=PKG_CONFIG");
    println!("cargo:rerun-if-env-changed=PKG_CONFIG_PATH");
    let program = env::var("PKG_CONFIG").ok();
    // The pkg-config of this machine knows no library for another one. A program that does is named by the variable.
    if program.is_none() && env::var("HOST") != env::var("TARGET") {
        return None;
    }
    let program = program.as_deref().unwrap_or("pkg-config");
    let major: u32 = env::var("CARGO_PKG_VERSION_MAJOR").ok()?.parse().ok()?;
    let minor: u32 = env::var("CARGO_PKG_VERSION_MINOR").ok()?.parse().ok()?;
    // In version 0 another minor version has another interface.
    let next = if major == 0 { format!("0.{}", minor + 1) } else { format!("{}", major + 1) };
    let from = format!("etherparse_transport >= {major}.{minor}");
    let below = format!("etherparse_transport < {next}");
    output(program, &["--exists", &from, &below])?;
    let folder = output(program, &["--variable=libdir", "etherparse_transport"])?;
    Some(folder.trim_end().to_string()).filter(|folder| !folder.is_empty())
}

/// What a program prints, if it succeeds.
fn output(program: &str, arguments: &[&str]) -> Option<String> {
    let output = Command::new(program).args(arguments).output().ok()?;
    if output.status.success() { String::from_utf8(output.stdout).ok() } else { None }
}

fn main() {
    println!("cargo:rerun-if-changed=build.rs");
    println!("cargo:rerun-if-env-changed=ETHERPARSE_TRANSPORT_C_LIB");
    if let Some(folder) = env::var("ETHERPARSE_TRANSPORT_C_LIB").ok().or_else(installed) {
        println!("cargo:rustc-link-search=native={folder}");
    }
    let kind = if env::var_os("CARGO_FEATURE_SHARED").is_some() { "dylib" } else { "static" };
    println!("cargo:rustc-link-lib={kind}=etherparse_transport");
}
