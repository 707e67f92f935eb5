//! Links the native archives into the program; the library part and its tests need none.

use std::path::Path;

pub fn main() {
    let native = Path::new(env!("CARGO_MANIFEST_DIR")).join("../../target/native");
    for archive in ["libhost.a", "liblister.a"] {
        let path = native.join(archive);
        println!("cargo:rustc-link-arg-bins={}", path.display());
        println!("cargo:rerun-if-changed={}", path.display());
    }
}
