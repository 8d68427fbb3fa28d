// Builds the peers in C++ and the counter of the heap, and links them, the project's static library and the kit's heap for it. Finds which exports
// the library has.
use std::env;
use std::fmt::Write;
use std::fs;
use std::path::{Path, PathBuf};
use std::process::Command;

const NAMES: [&str; 24] = [
    "u32",
    "string",
    "record",
    "plain",
    "own",
    "frames",
    "events",
    "numbers",
    "bools",
    "chars",
    "shorts",
    "rows",
    "list",
    "records",
    "tree",
    "shared",
    "pairs",
    "map",
    "text_pairs",
    "text_map",
    "compare_names",
    "get_map",
    "get_text_map",
    "view_rows",
];

fn run(command: &mut Command) -> String {
    let done = command
        .output()
        .unwrap_or_else(|e| panic!("{command:?}: {e}"));
    let said = String::from_utf8_lossy(&done.stderr);
    assert!(done.status.success(), "{command:?}: {said}");
    String::from_utf8_lossy(&done.stdout).into_owned()
}

// The names of the functions that a library defines.
fn defined(library: &Path) -> Vec<String> {
    let listed = run(Command::new("nm")
        .args(["-g", "--defined-only"])
        .arg(library));
    listed
        .lines()
        .filter_map(|line| line.split_whitespace().nth(2).map(String::from))
        .collect()
}

// A function from names of exports to those that are there, all of one type.
fn table(out: &mut String, has: &[String], kind: &str, names: &[&str], parameters: &str) {
    let there: Vec<&&str> = names
        .iter()
        .filter(|it| has.contains(&format!("archive_bench_{it}")))
        .collect();
    writeln!(
        out,
        "pub type {kind} = unsafe extern \"C\" fn({parameters}) -> usize;"
    )
    .unwrap();
    writeln!(out, "extern \"C\" {{").unwrap();
    for name in &there {
        writeln!(out, "    fn archive_bench_{name}({parameters}) -> usize;").unwrap();
    }
    writeln!(
        out,
        "}}\npub fn {}(name: &str) -> Option<{kind}> {{\n    match name {{",
        kind.to_lowercase()
    )
    .unwrap();
    for name in &there {
        writeln!(out, "        {name:?} => Some(archive_bench_{name}),").unwrap();
    }
    writeln!(out, "        _ => None,\n    }}\n}}").unwrap();
}

fn exports(library: &Path, out: &Path) {
    let has = defined(library);
    let mut text = String::new();
    table(
        &mut text,
        &has,
        "Run",
        &NAMES,
        "bytes: *const u8, len: usize, step: usize, size: usize, count: usize, operation: u32",
    );
    table(
        &mut text,
        &has,
        "Edit",
        &["seal_record"],
        "bytes: *mut u8, len: usize, count: usize",
    );
    fs::write(out.join("exports.rs"), text).unwrap();
}

fn peers(out: &Path) {
    run(Command::new("flatc")
        .args(["--cpp", "--gen-object-api", "-o"])
        .arg(out)
        .arg("peers/sets.fbs"));
    run(Command::new("capnp")
        .arg("compile")
        .arg(format!("-oc++:{}", out.display()))
        .args(["--src-prefix=peers", "peers/sets.capnp"]));
    let generated = out.join("sets.capnp.c++");
    let sources = [
        Path::new("peers/flat.cpp"),
        Path::new("peers/proto.cpp"),
        &generated,
    ];
    let mut objects = Vec::new();
    for (number, source) in sources.iter().enumerate() {
        let object = out.join(format!("peer{number}.o"));
        let mut compile = Command::new("g++");
        compile
            .args([
                "-std=c++17",
                "-O3",
                "-ffunction-sections",
                "-march=x86-64-v2",
                "-Wall",
                "-Ipeers",
                "-I",
            ])
            .arg(out);
        run(compile
            .args(["-x", "c++", "-c"])
            .arg(source)
            .arg("-o")
            .arg(&object));
        objects.push(object);
    }
    let library = out.join("libpeers.a");
    let _ = fs::remove_file(&library);
    run(Command::new("ar").arg("rcs").arg(&library).args(&objects));
    println!("cargo:rustc-link-search=native={}", out.display());
    println!("cargo:rustc-link-lib=static=peers");
    println!("cargo:rustc-link-lib=dylib=capnp");
    println!("cargo:rustc-link-lib=dylib=kj");
    println!("cargo:rustc-link-lib=dylib=stdc++");
}

fn main() {
    let out = PathBuf::from(env::var("OUT_DIR").unwrap());
    let library = Path::new("../crates/archive_bench/out/libarchive_bench.a")
        .canonicalize()
        .expect("run bench/run, which builds the library");
    let kit = env::var("RATTLE_KIT").expect("run bench/run, which names the kit");
    exports(&library, &out);
    println!(
        "cargo:rustc-link-search=native={}",
        library.parent().unwrap().display()
    );
    println!("cargo:rustc-link-search=native={kit}/c");
    println!("cargo:rustc-link-lib=static=archive_bench");
    println!("cargo:rustc-link-lib=static=libc_c");
    peers(&out);
    let heap = out.join("libheap.so");
    run(Command::new("gcc")
        .args(["-O2", "-Wall", "-shared", "-fPIC", "heap/heap.c", "-o"])
        .arg(&heap));
    println!("cargo:rustc-env=HEAP_LIBRARY={}", heap.display());
    println!("cargo:rerun-if-changed={}", library.display());
    println!("cargo:rerun-if-env-changed=RATTLE_KIT");
    for path in ["build.rs", "peers", "heap"] {
        println!("cargo:rerun-if-changed={path}");
    }
}
