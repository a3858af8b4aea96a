//! A folder for files that are made while the bench runs.

use std::fs;
use std::path::PathBuf;

/// A folder that goes when the bench is done with it.
pub struct Folder(PathBuf);

impl Folder {
    pub fn new() -> Folder {
        let path = std::env::temp_dir().join(format!("zundrafipo-bench-{}", std::process::id()));
        fs::create_dir(&path).expect("a folder for the files");
        Folder(path)
    }

    pub fn path(&self, name: &str) -> PathBuf {
        self.0.join(name)
    }

    pub fn file(&self, name: &str, bytes: &[u8]) -> PathBuf {
        let path = self.path(name);
        fs::write(&path, bytes).expect("the files can be written");
        path
    }
}

impl Drop for Folder {
    fn drop(&mut self) {
        // a folder that is left behind does no harm, and a panic here would hide another
        let _ = fs::remove_dir_all(&self.0);
    }
}
