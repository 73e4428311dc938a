//! The files of `examples/` out of which lines are made, for the tests of these notes.

use std::fs;
use std::path::{Path, PathBuf};

/// An example, and what the program is to print for it.
pub struct Example {
    /// Its name, without the extension.
    pub name: String,
    pub text: Vec<u8>,
    /// What goes to standard output.
    pub lines: Vec<u8>,
    /// What goes to standard error.
    pub answer: Vec<u8>,
}

pub fn folder() -> PathBuf {
    Path::new(env!("CARGO_MANIFEST_DIR")).join("../../examples")
}

/// Every example with this extension. What is printed for it stands in the folder of the program.
pub fn examples(extension: &str, program: &str) -> Vec<Example> {
    let files = fs::read_dir(folder()).expect("the folder of the examples is there");
    let paths = files.map(|file| file.expect("the folder can be read").path());
    paths
        .filter(|path| path.extension() == Some(extension.as_ref()))
        .map(|path| example(&path, &folder().join(program)))
        .collect()
}

fn example(path: &Path, printed: &Path) -> Example {
    let name = path.file_stem().and_then(|name| name.to_str());
    let name = name.expect("an example has a name");
    let beside = |extension: &str| file(&printed.join(format!("{name}.{extension}")));
    Example {
        name: name.to_string(),
        text: file(path),
        lines: beside("txt"),
        answer: beside("answer"),
    }
}

fn file(path: &Path) -> Vec<u8> {
    fs::read(path).unwrap_or_else(|error| panic!("{}: {error}", path.display()))
}
