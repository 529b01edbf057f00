//! Writes the samples and the page beside them.

use std::fs;
use std::io;

fn main() -> io::Result<()> {
    let folder = samples::folder();
    let all = samples::all();
    for sample in &all {
        let path = folder.join(sample.path);
        if let Some(within) = path.parent() {
            fs::create_dir_all(within)?;
        }
        fs::write(path, &sample.bytes)?;
    }
    fs::write(folder.join("README.md"), samples::readme(&all))
}
