// Links the proved archive where a feature asks for it.

fn main() {
    println!("cargo:rerun-if-changed=build.rs");
    if std::env::var_os("CARGO_FEATURE_ARCHIVE").is_none() {
        return;
    }
    println!("cargo:rerun-if-env-changed=HOST_ARCHIVE_DIR");
    let here = std::env::var("CARGO_MANIFEST_DIR").expect("cargo names the package's directory");
    let dir =
        std::env::var("HOST_ARCHIVE_DIR").unwrap_or_else(|_| format!("{here}/../target/staticlib"));
    println!("cargo:rerun-if-changed={dir}/libdawnclavier.a");
    println!("cargo:rustc-link-search=native={dir}");
    println!("cargo:rustc-link-lib=static=dawnclavier");
}
