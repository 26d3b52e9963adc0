// Part of two build scripts: puts the given files, byte for byte, and the stand-ins beside them into the build folder, and writes the
// list of modules. The folder of the given source is JAMFELL_RUST; nothing of it is written anywhere else.
use std::path::{Path, PathBuf};
use std::{env, fs};

pub fn given(file: &str) -> Vec<u8> {
    println!("cargo::rerun-if-env-changed=JAMFELL_RUST");
    let root = env::var("JAMFELL_RUST").expect("JAMFELL_RUST: the folder of the given source, the one that has crates/keri");
    let path = Path::new(&root).join("crates").join(file);
    println!("cargo::rerun-if-changed={}", path.display());
    fs::read(&path).unwrap_or_else(|e| panic!("{}: {e}", path.display()))
}

pub fn own(file: &str) -> Vec<u8> {
    println!("cargo::rerun-if-changed={file}");
    fs::read(file).unwrap_or_else(|e| panic!("{file}: {e}"))
}

pub struct Tree {
    folder: PathBuf,
    modules: String,
}

impl Tree {
    pub fn new() -> Self {
        Self { folder: PathBuf::from(env::var("OUT_DIR").expect("cargo sets it")), modules: String::new() }
    }

    pub fn file(&self, name: &str, bytes: &[u8]) {
        let path = self.folder.join(name);
        fs::create_dir_all(path.parent().expect("a folder")).expect("the folder is made");
        fs::write(&path, bytes).expect("the file is written");
    }

    pub fn module(&mut self, module: &str, name: &str, bytes: &[u8]) {
        self.file(name, bytes);
        let path = self.folder.join(name);
        self.modules += &format!("#[path = {:?}]\npub mod {module};\n", path.display().to_string());
    }

    pub fn end(self) {
        self.file("modules.rs", self.modules.as_bytes());
    }
}
