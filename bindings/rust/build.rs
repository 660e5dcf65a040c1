//! Links the proved archive `libbitm_c.a`: of the folder that BITM_LIB names, else that which `make archive` built in the
//! repository, else that of `prebuilt` there for the processor, else that of this crate (`lib/TARGET`). Under DOCS_RS, where
//! documentation alone is made, nothing is linked.
use std::{env, path::PathBuf, process::exit};

fn folders(target: &str) -> Vec<PathBuf> {
    if let Ok(folder) = env::var("BITM_LIB") {
        return vec![PathBuf::from(folder)];
    }
    let own = PathBuf::from(env::var("CARGO_MANIFEST_DIR").unwrap_or_default());
    let mut found = vec![own.join("../../crates/bitm_c/out")];
    for (processor, name) in [("x86_64-", "x86-64-v2"), ("aarch64-", "aarch64")] {
        if target.starts_with(processor) && target.contains("-linux-") {
            found.push(own.join("../../prebuilt").join(name));
        }
    }
    found.push(own.join("lib").join(target));
    found
}

fn main() {
    println!("cargo:rerun-if-env-changed=BITM_LIB");
    println!("cargo:rerun-if-env-changed=DOCS_RS");
    if env::var_os("DOCS_RS").is_some() {
        return;
    }
    let target = env::var("TARGET").unwrap_or_default();
    let folders = folders(&target);
    let Some(folder) = folders.iter().find(|it| it.join("libbitm_c.a").is_file()) else {
        let tried: Vec<_> = folders.iter().map(|it| it.display().to_string()).collect();
        eprintln!(
            "bitm-proved: no archive libbitm_c.a for {target} in {}. Set BITM_LIB to the folder that has it; in the \
             repository `make archive` builds it (with Rattle).",
            tried.join(" or in ")
        );
        exit(1);
    };
    println!("cargo:rerun-if-changed={}", folder.join("libbitm_c.a").display());
    println!("cargo:rustc-link-search=native={}", folder.display());
    println!("cargo:rustc-link-lib=static=bitm_c");
}
