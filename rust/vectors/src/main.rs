//! `cargo run -p vectors`: writes the files of `crates/trials` and `crates/lessons`.

use std::fs;

fn main() -> std::io::Result<()> {
    for (path, bytes) in vectors::files() {
        fs::create_dir_all(path.parent().unwrap())?;
        fs::write(path, bytes)?;
    }
    Ok(())
}
