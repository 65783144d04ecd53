//! Finds the installed library by pkg-config, by itself, so that nothing is fetched. FEZHALUM_STATIC=1 links it statically.
use std::env;
use std::process::Command;

fn main() {
    let major = env!("CARGO_PKG_VERSION_MAJOR");
    let program = env::var("PKG_CONFIG").unwrap_or("pkg-config".to_string());
    let answer = Command::new(&program)
        .args(["--libs", &format!("fezhalum >= {major}")])
        .output()
        .unwrap_or_else(|error| panic!("{program}: {error}"));
    assert!(answer.status.success(), "{}", String::from_utf8_lossy(&answer.stderr));
    let kind = if env::var_os("FEZHALUM_STATIC").is_some() { "static=" } else { "" };
    for word in String::from_utf8_lossy(&answer.stdout).split_whitespace() {
        if let Some(folder) = word.strip_prefix("-L") {
            println!("cargo::rustc-link-search=native={folder}");
        } else if let Some(name) = word.strip_prefix("-l") {
            println!("cargo::rustc-link-lib={kind}{name}");
        }
    }
    println!("cargo::rerun-if-env-changed=PKG_CONFIG_PATH");
    println!("cargo::rerun-if-env-changed=FEZHALUM_STATIC");
}
