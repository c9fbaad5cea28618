// The files that the crates' programs are run with, made from the Rust's answers: they are written,
// or what would be written now is compared with what is there.

use crate::compare::Tally;
use std::fs;
use std::path::Path;

// A path from the repository's root, and what the file holds.
pub type File = (&'static str, Vec<u8>);

// Writes the files, and the folders that are missing.
pub fn write(files: &[File]) {
    for (path, bytes) in files {
        let folder = Path::new(path).parent().expect("a file has a folder");
        fs::create_dir_all(folder).expect("a folder was not made");
        fs::write(path, bytes).expect("a file was not written");
        println!("{path}: {} lines written", split(bytes).len());
    }
}

// A file's lines on the disk beside those that would be written now.
pub fn on_disk((path, bytes): &File) -> Tally {
    each_line(&fs::read(path).unwrap_or_default(), bytes)
}

// Compares two texts line by line.
pub fn each_line(ours: &[u8], rust: &[u8]) -> Tally {
    let mut tally = Tally::default();
    let [ours, rust] = [ours, rust].map(split);
    for line in 0..ours.len().max(rust.len()) {
        let [ours, rust] = [&ours, &rust].map(|all| shown(all.get(line)));
        tally.note([format!("line {}", line + 1)], ours, rust);
    }
    tally
}

// The lines of a text, each with its feed if it has one.
fn split(text: &[u8]) -> Vec<&[u8]> {
    text.split_inclusive(|&byte| byte == b'\n').collect()
}

// A line in letters that can be printed: other bytes are escaped, so that no two look alike.
fn shown(line: Option<&&[u8]>) -> String {
    line.map_or("no line".to_string(), |line| line.escape_ascii().to_string())
}
