//! Links the library: the static one of the folder that TYPED_HEADERS names, else the one that pkg-config knows.
use std::path::Path;
use std::process::Command;

const VERSION: &str = "2.0";

fn main() {
    println!("cargo::rerun-if-env-changed=TYPED_HEADERS");
    println!("cargo::rerun-if-env-changed=PKG_CONFIG_PATH");
    let result = match std::env::var_os("TYPED_HEADERS") {
        Some(folder) => link_folder(Path::new(&folder)),
        None => link_installed(),
    };
    if let Err(message) = result {
        println!("cargo::error={message}");
    }
}

fn link_folder(folder: &Path) -> Result<(), String> {
    if !folder.join("libtyped_headers.a").is_file() {
        return Err(format!("TYPED_HEADERS is {}, where there is no libtyped_headers.a", folder.display()));
    }
    println!("cargo::rustc-link-search=native={}", folder.display());
    println!("cargo::rustc-link-lib=static=typed_headers");
    Ok(())
}

fn link_installed() -> Result<(), String> {
    const INSTALL: &str = "install libtyped-headers-dev, or set TYPED_HEADERS to the folder of libtyped_headers.a";
    let told = Command::new(std::env::var_os("PKG_CONFIG").unwrap_or("pkg-config".into()))
        .args(["--libs", &format!("typed_headers >= {VERSION}")])
        .output()
        .map_err(|error| format!("pkg-config doesn't run ({error}): {INSTALL}"))?;
    if !told.status.success() {
        return Err(format!("pkg-config doesn't know typed_headers {VERSION} or later: {INSTALL}"));
    }
    for word in String::from_utf8_lossy(&told.stdout).split_whitespace() {
        if let Some(folder) = word.strip_prefix("-L") {
            println!("cargo::rustc-link-search=native={folder}");
        } else if let Some(name) = word.strip_prefix("-l") {
            println!("cargo::rustc-link-lib={name}");
        }
    }
    Ok(())
}
