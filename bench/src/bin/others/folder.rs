//! A folder of one's own on a memory file system, removed at the end.

use std::path::PathBuf;

pub struct Folder {
    base: PathBuf,
    path: PathBuf,
}

impl Folder {
    /// In /dev/shm, or where the environment's `BENCH_FOLDER` says.
    pub fn new() -> Folder {
        let base = std::env::var_os("BENCH_FOLDER").unwrap_or("/dev/shm".into());
        let base = PathBuf::from(base);
        let path = base.join(format!("quote-store-bench-{}", std::process::id()));
        std::fs::create_dir(&path)
            .unwrap_or_else(|error| panic!("{} can't be made: {error}", path.display()));
        Folder { base, path }
    }

    /// Where the folder is.
    pub fn base(&self) -> String {
        self.base.display().to_string()
    }

    /// The path of a file in it.
    pub fn file(&self, name: &str) -> String {
        self.path.join(name).display().to_string()
    }
}

impl Drop for Folder {
    fn drop(&mut self) {
        // Nothing can be done about a folder that stays.
        let _ = std::fs::remove_dir_all(&self.path);
    }
}
