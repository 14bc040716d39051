//! Writes the vectors to a folder.

use std::path::Path;
use std::process::ExitCode;

fn main() -> ExitCode {
    let words: Vec<String> = std::env::args().skip(1).collect();
    let [folder] = &words[..] else {
        eprintln!("usage: write_vectors FOLDER");
        return ExitCode::from(2);
    };
    for (name, text) in reference::vectors::files() {
        let path = Path::new(folder).join(name);
        if let Err(why) = std::fs::write(&path, text) {
            eprintln!("write_vectors: {}: {why}", path.display());
            return ExitCode::from(1);
        }
    }
    ExitCode::SUCCESS
}
