//! Links the archive of crate `kribbelsteen`.

use std::env;
use std::path::PathBuf;
use std::process::exit;

fn main() {
    let package = env::var_os("CARGO_MANIFEST_DIR").expect("cargo sets CARGO_MANIFEST_DIR");
    let folder = PathBuf::from(package).join("../target/staticlib");
    let archive = folder.join("libkribbelsteen.a");
    println!("cargo:rerun-if-changed={}", archive.display());
    if !archive.is_file() {
        eprintln!(
            "There is no {}.\nRun `tools/build.sh kribbelsteen` in the repository's top folder first: \
             it proves the library and writes the archive.",
            archive.display()
        );
        exit(1);
    }
    println!("cargo:rustc-link-search=native={}", folder.display());
    println!("cargo:rustc-link-lib=static=kribbelsteen");
}
