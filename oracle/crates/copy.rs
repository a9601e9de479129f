// Shared by the build scripts: copies the unchanged Rust files out of PUMPKIN_SRC into OUT_DIR.
// PUMPKIN_SRC names a checkout of Pumpkin at the commit of NOTICE, or a folder with the same paths below it.
// A relative path is taken from this workspace's folder.
fn fetch(path: &str) -> String {
    use std::path::PathBuf;
    println!("cargo:rerun-if-env-changed=PUMPKIN_SRC");
    let workspace = PathBuf::from(std::env::var("CARGO_MANIFEST_DIR").unwrap()).join("../..");
    let root = std::env::var("PUMPKIN_SRC").expect("set PUMPKIN_SRC to a checkout of Pumpkin");
    let from = workspace.join(root).join(path);
    println!("cargo:rerun-if-changed={}", from.display());
    std::fs::read_to_string(&from).unwrap_or_else(|e| {
        panic!("{}: {e}; set PUMPKIN_SRC to a checkout of Pumpkin", from.display())
    })
}

fn put(name: &str, text: &str) {
    let out = std::path::PathBuf::from(std::env::var("OUT_DIR").unwrap());
    std::fs::write(out.join(name), text).unwrap();
}
