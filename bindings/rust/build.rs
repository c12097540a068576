//! Finds the C library: in the folder that SBLOG_LIB_DIR names, else by pkg-config. SBLOG_LINK=dylib takes the shared one.

use std::env;
use std::process::Command;

const CURE: &str = "there is no C library sblog: `make install` it, and name the folder of libsblog.a in SBLOG_LIB_DIR, \
                    or that of sblog.pc in PKG_CONFIG_PATH";

fn main() {
    for name in ["SBLOG_LIB_DIR", "SBLOG_LINK", "PKG_CONFIG_PATH"] {
        println!("cargo::rerun-if-env-changed={name}");
    }
    let folder = env::var("SBLOG_LIB_DIR").unwrap_or_else(|_| {
        let told = Command::new("pkg-config").args(["--variable=libdir", "sblog"]).output().expect(CURE);
        assert!(told.status.success(), "{CURE}");
        String::from_utf8(told.stdout).expect(CURE).trim().to_string()
    });
    println!("cargo::rerun-if-changed={folder}/libsblog.a");
    println!("cargo::rustc-link-search=native={folder}");
    println!("cargo::rustc-link-lib={}=sblog", env::var("SBLOG_LINK").unwrap_or_else(|_| "static".to_string()));
}
