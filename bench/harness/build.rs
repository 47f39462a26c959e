//! Links the port's library of rows, whose folder and parts the command names.
use std::env;

fn main() {
    println!("cargo:rerun-if-env-changed=PORT_LIBRARIES");
    let libraries = env::var("PORT_LIBRARIES").expect("bench/run sets PORT_LIBRARIES");
    for library in libraries.split(' ') {
        let (folder, file) = library.rsplit_once('/').expect("a library is a path");
        let name = file
            .strip_prefix("lib")
            .and_then(|name| name.strip_suffix(".a"))
            .expect("a library is libNAME.a");
        println!("cargo:rerun-if-changed={library}");
        println!("cargo:rustc-link-search=native={folder}");
        println!("cargo:rustc-link-lib=static={name}");
    }
}
