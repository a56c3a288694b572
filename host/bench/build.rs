//! Compiles the way to libavcodec, where pkg-config finds it and there is a C compiler.

use std::env;
use std::path::{Path, PathBuf};
use std::process::Command;

/// The C side.
const SOURCE: &str = "src/libavcodec.c";

/// The libraries, as pkg-config names them.
const PACKAGES: [&str; 2] = ["libavcodec", "libavutil"];

/// A file that is never there: cargo looks again whenever it builds.
const NEVER_THERE: &str = "src/libavcodec-not-found";

fn main() {
    println!("cargo::rustc-check-cfg=cfg(libavcodec)");
    println!("cargo::rerun-if-changed=build.rs");
    println!("cargo::rerun-if-changed={SOURCE}");
    for variable in ["PKG_CONFIG_PATH", "PKG_CONFIG_LIBDIR"] {
        println!("cargo::rerun-if-env-changed={variable}");
    }
    let folder = PathBuf::from(env::var_os("OUT_DIR").expect("cargo sets it"));
    match compile(&folder) {
        Some(libraries) => {
            println!("cargo::rustc-cfg=libavcodec");
            println!("cargo::rustc-link-search=native={}", folder.display());
            println!("cargo::rustc-link-lib=static=bench_libavcodec");
            for word in libraries {
                link(&word);
            }
        }
        None => println!("cargo::rerun-if-changed={NEVER_THERE}"),
    }
}

/// Tells cargo of the files behind pkg-config's answers, so that cargo notices when they go.
fn watch_packages() -> Option<()> {
    for package in PACKAGES {
        let mut question = Command::new("pkg-config");
        let folder = run(question.arg("--variable=pcfiledir").arg(package))?;
        println!("cargo::rerun-if-changed={}/{package}.pc", folder.trim());
    }
    Some(())
}

/// Compiles the C side into an archive in a folder, and gives pkg-config's words for the linker; none
/// where something is not installed.
fn compile(folder: &Path) -> Option<Vec<String>> {
    watch_packages()?;
    let libraries = pkg_config("--libs")?;
    let object = folder.join("libavcodec.o");
    let mut compiler = Command::new("cc");
    compiler
        .args(["-std=c11", "-O2", "-fPIC", "-Wall", "-Wextra", "-c"])
        .args(pkg_config("--cflags")?)
        .arg(SOURCE)
        .arg("-o")
        .arg(&object);
    let mut archiver = Command::new("ar");
    archiver
        .arg("crs")
        .arg(folder.join("libbench_libavcodec.a"))
        .arg(&object);
    if run(&mut compiler)
        .and_then(|_| run(&mut archiver))
        .is_none()
    {
        println!("cargo::warning=libavcodec is installed, but {SOURCE} could not be compiled");
        return None;
    }
    Some(libraries)
}

/// What pkg-config says of the libraries, word by word.
fn pkg_config(question: &str) -> Option<Vec<String>> {
    let text = run(Command::new("pkg-config").arg(question).args(PACKAGES))?;
    Some(text.split_whitespace().map(String::from).collect())
}

/// What a command writes, if it can be run and succeeds.
fn run(command: &mut Command) -> Option<String> {
    let output = command.output().ok()?;
    let text = String::from_utf8(output.stdout).ok()?;
    output.status.success().then_some(text)
}

/// Hands a word of pkg-config to the linker.
fn link(word: &str) {
    if let Some(library) = word.strip_prefix("-l") {
        println!("cargo::rustc-link-lib={library}");
    } else if let Some(folder) = word.strip_prefix("-L") {
        println!("cargo::rustc-link-search=native={folder}");
    } else {
        println!("cargo::rustc-link-arg={word}");
    }
}
