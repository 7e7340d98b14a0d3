//! Running the programs in a folder of their own.

use reference::Kind;
use std::env;
use std::ffi::OsStr;
use std::fs::{self, File};
use std::io::Write;
use std::os::unix::process::CommandExt;
use std::path::{Path, PathBuf};
use std::process::{id, Command, Stdio};
use std::sync::atomic::{AtomicUsize, Ordering};
use std::thread;

/// The word in front of the others that says the kind, or none.
pub fn option(kind: Kind) -> &'static str {
    match kind {
        Kind::Plain => "",
        Kind::Extended => panic!("mux and demux have no extended headers"),
        Kind::Short => "--short ",
    }
}

/// What a program wrote.
pub struct Said {
    pub out: Vec<u8>,
    pub err: String,
}

/// A folder in which the programs run, removed in the end.
pub struct Folder(PathBuf);

impl Folder {
    pub fn new() -> Folder {
        static MADE: AtomicUsize = AtomicUsize::new(0);
        let number = MADE.fetch_add(1, Ordering::Relaxed);
        let path = env::temp_dir().join(format!("niranbok-tools-{}-{number}", id()));
        fs::create_dir(&path).expect("a new folder");
        Folder(path)
    }

    pub fn path(&self, name: &str) -> PathBuf {
        self.0.join(name)
    }

    pub fn write(&self, name: &str, bytes: &[u8]) {
        fs::write(self.path(name), bytes).expect("a file written");
    }

    pub fn read(&self, name: &str) -> Vec<u8> {
        fs::read(self.path(name)).expect("a file read")
    }

    /// Runs a tool under its name with these words, `''` being an empty one,
    /// and nothing to read on standard input.
    pub fn run(&self, tool: &str, words: &str) -> Said {
        said(self.command(tool, words).stdin(Stdio::null()))
    }

    /// The same with a file as standard input.
    pub fn run_on(&self, tool: &str, words: &str, name: &str) -> Said {
        let file = File::open(self.path(name)).expect("a file read");
        said(self.command(tool, words).stdin(file))
    }

    /// The same with a pipe as standard input.
    pub fn pipe(&self, tool: &str, words: &str, input: &[u8]) -> Said {
        let mut command = self.command(tool, words);
        let (end, mut start) = std::io::pipe().expect("a pipe");
        thread::scope(|scope| {
            // A tool that stops early leaves the rest unread.
            scope.spawn(move || start.write_all(input).ok());
            said(command.stdin(end))
        })
    }

    /// The program started by a tool's name, or by any other.
    pub fn command(&self, tool: &str, words: &str) -> Command {
        let mut command = start(&program(), tool.as_ref());
        let words = words.split_whitespace();
        command
            .args(words.map(|word| word.trim_matches('\'')))
            .current_dir(&self.0);
        command
    }
}

impl Default for Folder {
    fn default() -> Folder {
        Folder::new()
    }
}

impl Drop for Folder {
    fn drop(&mut self) {
        fs::remove_dir_all(&self.0).ok();
    }
}

/// What a command writes. It lets go of its standard input behind that, so
/// that who still writes into a pipe learns of the end.
fn said(command: &mut Command) -> Said {
    let output = command.output();
    command.stdin(Stdio::null());
    let output = output.expect("the program runs");
    Said {
        out: output.stdout,
        err: String::from_utf8(output.stderr).expect("text on standard error"),
    }
}

/// A program under a name, started by the emulator that NIRANBOK_EMULATOR
/// names, if it names one.
pub fn start(program: &Path, name: &OsStr) -> Command {
    let Some(emulator) = env::var_os("NIRANBOK_EMULATOR") else {
        let mut command = Command::new(program);
        command.arg0(name);
        return command;
    };
    let mut command = Command::new(emulator);
    command.arg("-0").arg(name).arg(program);
    command
}

/// The program that is all four tools.
pub fn program() -> PathBuf {
    let named = env::var_os("NIRANBOK_TOOLS").map(PathBuf::from);
    let named = named.unwrap_or_else(|| "../../crates/tools/out/tools".into());
    let program = Path::new(env!("CARGO_MANIFEST_DIR")).join(named);
    let shown = program.display();
    assert!(
        program.is_file(),
        "there is no {shown}: name it in NIRANBOK_TOOLS"
    );
    program
}

/// One in how many inputs is tried where there are many: NIRANBOK_PART, or 1.
pub fn part() -> usize {
    let part = env::var("NIRANBOK_PART").ok();
    part.map_or(1, |part| part.parse().expect("NIRANBOK_PART is a number"))
}
