//! Links the library's archive into the comparisons and the benchmarks that call it.
//!
//! The archive is `../crates/exports/out/libexports.a`; the environment variable `HIWENOKA_LIB_DIR`
//! names another folder. The package's own library and its unit tests do not need it. Tests that
//! link it into a program of their own have its path as `HIWENOKA_ARCHIVE`.

use std::env;
use std::path::PathBuf;

fn main() {
    println!("cargo:rerun-if-env-changed=HIWENOKA_LIB_DIR");
    let folder = match env::var_os("HIWENOKA_LIB_DIR") {
        Some(folder) => PathBuf::from(folder),
        None => {
            let package = env::var_os("CARGO_MANIFEST_DIR").expect("cargo names the package");
            PathBuf::from(package).join("../crates/exports/out")
        }
    };
    let archive = folder.join("libexports.a");
    let archive = archive.display();
    println!("cargo:rerun-if-changed={archive}");
    println!("cargo:rustc-env=HIWENOKA_ARCHIVE={archive}");
    println!("cargo:rustc-link-arg-tests={archive}");
    println!("cargo:rustc-link-arg-bin=bench_table={archive}");
    println!("cargo:rustc-link-arg-bin=bench_sheet={archive}");
    println!("cargo:rustc-link-arg-bin=bench_newick={archive}");
    println!("cargo:rustc-link-arg-bin=bench_screen={archive}");
    println!("cargo:rustc-link-arg-bin=bench_small_trees={archive}");
    println!("cargo:rustc-link-arg-bin=bench_trees_of_dots={archive}");
    println!("cargo:rustc-link-arg-bin=bench_layout={archive}");
    println!("cargo:rustc-link-arg-bin=bench_treetex={archive}");
    println!("cargo:rustc-link-arg-bin=time_layout={archive}");
    println!("cargo:rustc-link-arg-bin=bench_listing={archive}");
}
