//! Writes the stored cases of the project's program: `store_cases` fills tests/stored/rl.

use std::fs;
use std::path::Path;

use second::program_cases::{cases, files, folder, Kept};

fn main() -> std::io::Result<()> {
    let stored = Path::new(env!("CARGO_MANIFEST_DIR")).join("../stored/rl");
    let _ = fs::remove_dir_all(&stored);
    for (at, case) in cases().iter().enumerate() {
        let room = stored.join(folder(at));
        fs::create_dir_all(&room)?;
        for (name, kept) in files(case) {
            match kept {
                Kept::Bytes(bytes) => fs::write(room.join(name), bytes)?,
                Kept::Nothing => {}
                Kept::Folder => {
                    fs::create_dir(room.join(name))?;
                    fs::write(room.join(name).join("kept"), "")?;
                }
            }
        }
    }
    Ok(())
}
