//! Makes event files: `load own|shared|reads|reads-at-0 FOLDER FILES KIB` writes `FOLDER/0.grub`
//! and so on, of at most so many KiB each. With `own`, each file has tasks of its own; with
//! `shared`, all files have lines of the same tasks; the lines of `reads` all read the runqueue,
//! each at a later moment than the one before, and those of `reads-at-0` at 0.

mod random;
mod script;
mod tasks;

use script::Script;
use std::process::exit;
use tasks::Tasks;

fn main() {
    let words: Vec<String> = std::env::args().skip(1).collect();
    let Some((kind, folder, files, bytes)) = parsed(&words) else {
        eprintln!("usage: load own|shared|reads|reads-at-0 FOLDER FILES KIB");
        exit(2);
    };
    if let Err(error) = write(kind, folder, files, bytes) {
        eprintln!("load: {folder}: {error}");
        exit(3);
    }
}

/// The kind, the folder, the number of files, and the bytes of each.
fn parsed(words: &[String]) -> Option<(&str, &str, usize, usize)> {
    let [kind, folder, files, size] = words else {
        return None;
    };
    let files = files
        .parse()
        .ok()
        .filter(|files| (1..=64).contains(files))?;
    let size: usize = size.parse().ok().filter(|size| *size <= 16384)?;
    let is_known = matches!(kind.as_str(), "own" | "shared" | "reads" | "reads-at-0");
    is_known.then_some((kind, folder, files, size * 1024))
}

fn write(kind: &str, folder: &str, files: usize, bytes: usize) -> std::io::Result<()> {
    std::fs::create_dir_all(folder)?;
    for file in 0..files {
        let text = match kind {
            "own" => Script::of_turns(&Tasks::own(files), file, bytes),
            "shared" => Script::of_turns(&Tasks::shared(files), file, bytes),
            "reads" => Script::of_reads(1, bytes),
            _ => Script::of_reads(0, bytes),
        };
        std::fs::write(format!("{folder}/{file}.grub"), text)?;
    }
    Ok(())
}
