//! Compiles `libipxr/libipxr.c` with the system's compiler of C. Where IPXR_LIB names a folder with `libipxr.a`, that is linked instead.
//!
//! Read are CC, CFLAGS and AR, each also as CC_TARGET, with the target's name in it, and as TARGET_CC. Without them the compiler is `cc`,
//! or for another target the one that Debian's package for it brings.
use std::env;
use std::ffi::OsStr;
use std::path::{Path, PathBuf};
use std::process::{exit, Command};

const ASKED: [&str; 3] = ["CC", "CFLAGS", "AR"];
const LIBRARY: &str = "libipxr/libipxr.c";
const LAYOUTS: &str = "libipxr/layouts.c";
/// Where Debian's compilers for a target are called otherwise than its processor and system are in Rust.
const PREFIXES: [(&str, &str); 5] = [
    ("x86_64-pc-windows-gnu", "x86_64-w64-mingw32"),
    ("i686-pc-windows-gnu", "i686-w64-mingw32"),
    ("armv7-unknown-linux-gnueabihf", "arm-linux-gnueabihf"),
    ("riscv64gc-unknown-linux-gnu", "riscv64-linux-gnu"),
    ("powerpc64le-unknown-linux-gnu", "powerpc64le-linux-gnu"),
];

fn main() {
    println!("cargo:rerun-if-env-changed=IPXR_LIB");
    println!("cargo:rerun-if-changed=libipxr");
    println!("cargo:rerun-if-changed=build.rs");
    let tools = Tools::found();
    match env::var_os("IPXR_LIB") {
        Some(folder) => link_ready(&tools, Path::new(&folder)),
        None if Path::new(LIBRARY).is_file() => compile_own(&tools),
        None => fail(
            "libipxr/libipxr.c is missing: `tools/packages rust` makes the whole package. Or name a folder with libipxr.a in IPXR_LIB.",
        ),
    }
}

/// The library of the package itself.
fn compile_own(tools: &Tools) {
    let objects = [tools.compiled(LIBRARY, None), tools.compiled(LAYOUTS, None)];
    tools.archive("ipxr", &objects);
    println!("cargo:rustc-cfg=ipxr_layouts");
}

/// A library that is ready. If its headers are beside it, the tests see that they are those of this crate.
fn link_ready(tools: &Tools, folder: &Path) {
    println!("cargo:rerun-if-changed={}", folder.join("libipxr.a").display());
    println!("cargo:rustc-link-search=native={}", folder.display());
    println!("cargo:rustc-link-lib=static=ipxr");
    let beside = [folder.to_path_buf(), folder.join("../include")];
    if let Some(headers) = beside.iter().find(|it| it.join("ipxr_peers.h").is_file()) {
        tools.archive("ipxr_layouts", &[tools.compiled(LAYOUTS, Some(headers))]);
        println!("cargo:rustc-cfg=ipxr_layouts");
    }
}

/// What compiles for the target, and where it puts what it makes.
struct Tools {
    compiler: Vec<String>,
    words: Vec<String>,
    archiver: String,
    made: PathBuf,
}

impl Tools {
    fn found() -> Tools {
        let target = variable("TARGET");
        let asked = ASKED.map(|what| asked(what, &target));
        let [compiler, words, archiver] = asked;
        let prefix = if target == variable("HOST") { None } else { prefix(&target) };
        let named = |tool: &str, own: &str| prefix.as_ref().map_or(own.to_string(), |it| format!("{it}-{tool}"));
        Tools {
            compiler: split(&compiler.unwrap_or_else(|| named("gcc", own_compiler(&target)))),
            words: split(&words.unwrap_or_default()),
            archiver: archiver.unwrap_or_else(|| named("ar", "ar")),
            made: PathBuf::from(variable("OUT_DIR")),
        }
    }

    /// The object of a source.
    fn compiled(&self, source: &str, headers: Option<&PathBuf>) -> PathBuf {
        let stem = Path::new(source).file_stem().unwrap_or_default();
        let object = self.made.join(stem).with_extension("o");
        let mut command = Command::new(&self.compiler[0]);
        command.args(&self.compiler[1..]).args(["-O2", "-std=c99"]);
        if env::var_os("CARGO_CFG_WINDOWS").is_none() {
            command.arg("-fPIC");
        }
        if let Some(folder) = headers {
            command.arg("-I").arg(folder);
        }
        command.arg("-Ilibipxr").args(&self.words).arg("-c").arg(source).arg("-o").arg(&object);
        run(command);
        object
    }

    /// Links a library of objects.
    fn archive(&self, name: &str, objects: &[PathBuf]) {
        let is_microsoft = env::var_os("CARGO_CFG_TARGET_ENV").as_deref() == Some(OsStr::new("msvc"));
        let file = self.made.join(if is_microsoft { format!("{name}.lib") } else { format!("lib{name}.a") });
        // (an archiver adds to what is there)
        let _ = std::fs::remove_file(&file);
        let mut command = Command::new(&self.archiver);
        command.arg("crs").arg(&file).args(objects);
        run(command);
        println!("cargo:rustc-link-search=native={}", self.made.display());
        println!("cargo:rustc-link-lib=static={name}");
    }
}

/// What the environment says of a tool, for the target first.
fn asked(what: &str, target: &str) -> Option<String> {
    let names = [format!("{what}_{target}"), format!("{what}_{}", target.replace('-', "_")), format!("TARGET_{what}"), what.to_string()];
    for name in &names {
        println!("cargo:rerun-if-env-changed={name}");
    }
    names.iter().find_map(|it| env::var(it).ok())
}

/// The compiler for a target whose tools have no prefix.
fn own_compiler(target: &str) -> &'static str {
    if target.contains("windows") {
        "gcc"
    } else if target.contains("-musl") {
        "musl-gcc"
    } else {
        "cc"
    }
}

/// How the tools for another target begin.
fn prefix(target: &str) -> Option<String> {
    let known = PREFIXES.iter().find(|(it, _)| *it == target).map(|(_, prefix)| prefix.to_string());
    known.or_else(|| target.contains("-linux-gnu").then(|| target.replace("-unknown", "")))
}

fn split(words: &str) -> Vec<String> {
    words.split_whitespace().map(str::to_string).collect()
}

fn variable(name: &str) -> String {
    env::var(name).unwrap_or_default()
}

fn run(mut command: Command) {
    match command.status() {
        Ok(status) if status.success() => {}
        Ok(status) => fail(&format!("{command:?} ended with {status}")),
        Err(why) => fail(&format!("{command:?}: {why}")),
    }
}

fn fail(why: &str) {
    eprintln!("ipxr: {why}");
    exit(1);
}
