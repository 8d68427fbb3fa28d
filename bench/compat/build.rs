// Links the project's static library and the kit's heap for it.
use std::env;
use std::path::Path;

fn main() {
    let library = Path::new("../../crates/archive_compat/out/libarchive_compat.a")
        .canonicalize()
        .expect("run bench/compat/run, which builds the library");
    let kit = env::var("RATTLE_KIT").expect("run bench/compat/run, which names the kit");
    println!(
        "cargo:rustc-link-search=native={}",
        library.parent().unwrap().display()
    );
    println!("cargo:rustc-link-search=native={kit}/c");
    println!("cargo:rustc-link-lib=static=archive_compat");
    println!("cargo:rustc-link-lib=static=libc_c");
    println!("cargo:rerun-if-changed=build.rs");
    println!("cargo:rerun-if-changed={}", library.display());
    println!("cargo:rerun-if-env-changed=RATTLE_KIT");
}
