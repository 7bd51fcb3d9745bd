//! What a run could leave on the machine: mounts and loop devices, which carry the run's tag. It makes no file outside its own mounts, and its
//! processes end with the harness.

use std::path::Path;
use std::time::Duration;
use std::{fs, thread};

/// The mounts and loop devices that carry the tag. The kernel unmounts what a namespace had a moment after its last process ended, so they are looked
/// for until there are none, for up to five seconds.
pub fn remains(tag: &str) -> Vec<String> {
    for _ in 0..50 {
        if found(tag).is_empty() {
            return Vec::new();
        }
        thread::sleep(Duration::from_millis(100));
    }
    found(tag)
}

fn found(tag: &str) -> Vec<String> {
    let mounts = files("/proc", "mountinfo");
    let loops = files("/sys/block", "loop/backing_file");
    mounts.into_iter().chain(loops).filter(|(_, text)| text.contains(tag)).map(|(name, _)| name).collect()
}

// The file of that name in each directory of a directory, as far as there is one, with its text.
fn files(directory: &str, name: &str) -> Vec<(String, String)> {
    let entries = fs::read_dir(Path::new(directory)).into_iter().flatten().flatten();
    let read = |path: std::path::PathBuf| Some((path.display().to_string(), fs::read_to_string(path).ok()?));
    entries.filter_map(|entry| read(entry.path().join(name))).collect()
}
