//! Stand-in for `temp_dir`: a new folder that is removed with all it holds on drop.

// Where files are kept in memory there is no folder to make.
use std_standin::fs;

use std::{
    env, io,
    path::{Path, PathBuf},
    process,
    sync::atomic::{AtomicUsize, Ordering},
};

pub struct TempDir(PathBuf);

impl TempDir {
    /// A new folder in the system's folder for temporary files.
    pub fn with_prefix(prefix: &str) -> io::Result<TempDir> {
        static COUNT: AtomicUsize = AtomicUsize::new(0);
        let count = COUNT.fetch_add(1, Ordering::Relaxed);
        let path = env::temp_dir().join(format!("{prefix}{}_{count}", process::id()));
        fs::create_dir(&path)?;
        Ok(TempDir(path))
    }

    pub fn path(&self) -> &Path {
        &self.0
    }
}

impl Drop for TempDir {
    fn drop(&mut self) {
        // Nothing can be done about a folder that does not go.
        let _ = fs::remove_dir_all(&self.0);
    }
}

#[cfg(test)]
mod tests {
    use super::TempDir;
    use std::fs;

    #[test]
    fn folders_differ_and_go_away() {
        let one = TempDir::with_prefix("temp_dir_test").unwrap();
        let two = TempDir::with_prefix("temp_dir_test").unwrap();
        assert_ne!(one.path(), two.path());
        let path = one.path().to_owned();
        fs::write(path.join("file"), "x").unwrap();
        drop(one);
        assert!(!path.exists() && two.path().exists());
    }
}
