//! Has cargo link anew where the proved archive is another: it looks at the sources by itself, but not at an archive that they name.

fn main() {
    println!("cargo:rerun-if-changed=build.rs");
    if std::env::var_os("CARGO_FEATURE_PROVED").is_some() {
        println!("cargo:rerun-if-changed=../target/staticlib/libc_face.a");
    }
}
