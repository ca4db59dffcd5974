// Links what run.sh has built before: the proved static library, the toolchain's C part below it, and the C programs of c/.
use std::env::var;

fn main() {
    let root = var("CARGO_MANIFEST_DIR").unwrap();
    println!("cargo:rustc-link-search=native={root}/../crates/exports/out");
    println!("cargo:rustc-link-search=native={root}/target/c");
    println!("cargo:rustc-link-search=native={}", var("RATTLE_C").unwrap_or("/opt/rattle/c".into()));
    println!("cargo:rustc-link-lib=static=exports");
    println!("cargo:rustc-link-lib=static=libc_c");
    println!("cargo:rustc-link-lib=static=forms");
    if var("HARNESS_ARB").is_ok_and(|arb| arb == "1") {
        println!("cargo:rustc-link-lib=static=arbs");
        println!("cargo:rustc-link-lib=dylib=flint-arb");
        println!("cargo:rustc-link-lib=dylib=flint");
        println!("cargo:rustc-cfg=arb");
    }
    println!("cargo:rustc-check-cfg=cfg(arb)");
    println!("cargo:rerun-if-env-changed=HARNESS_ARB");
    println!("cargo:rerun-if-env-changed=RATTLE_C");
    println!("cargo:rerun-if-changed={root}/../crates/exports/out/libexports.a");
    println!("cargo:rerun-if-changed={root}/target/c/libforms.a");
    println!("cargo:rerun-if-changed={root}/target/c/libarbs.a");
}
