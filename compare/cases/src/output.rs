//! The output folder, for the programs that write cases.

use std::path::PathBuf;
use std::{env, fs, io};

pub struct Folder(PathBuf);

impl Folder {
    /// The folder that the first argument names, made when it is missing.
    pub fn from_argument() -> io::Result<Folder> {
        let Some(name) = env::args_os().nth(1) else {
            return Err(io::Error::other("give an output folder"));
        };
        let path = PathBuf::from(name);
        fs::create_dir_all(&path)?;
        Ok(Folder(path))
    }

    pub fn write(&self, name: &str, content: &[u8]) -> io::Result<()> {
        fs::write(self.0.join(name), content)
    }
}
