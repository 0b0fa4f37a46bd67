//! Links `side_by_side` with the port's library. PORT_LIB is its folder, and KIT_C that of the toolchain's part that
//! passes allocations on.
use std::env;

fn main() {
    for (name, libraries) in [("PORT_LIB", &["headers_bench"][..]), ("KIT_C", &["os_c", "libc_c"])] {
        println!("cargo:rerun-if-env-changed={name}");
        let Ok(folder) = env::var(name) else { continue };
        println!("cargo:rustc-link-search=native={folder}");
        for library in libraries {
            println!("cargo:rustc-link-arg-bin=side_by_side=-l{library}");
            println!("cargo:rerun-if-changed={folder}/lib{library}.a");
        }
    }
}
