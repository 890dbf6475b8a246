//! The replay program beside one that replays by the reference implementation: both are started, read a stream and print.

use std::ffi::OsStr;
use std::io::{self, Read, Write};
use std::path::{Path, PathBuf};
use std::process::{Command, Stdio};
use std::{env, fs};

/// Under this variable the program of the measurements is the reference's replay.
const AS_REPLAY: &str = "BENCH_REPLAY";

/// A stream in a file, and the two programs.
pub struct Replay {
    program: PathBuf,
    stream: PathBuf,
}

impl Replay {
    /// None where the replay program is not built.
    pub fn of(name: &str, stream: &[u8]) -> Option<Self> {
        let program = Path::new(env!("CARGO_MANIFEST_DIR")).join("../../target/bin/replay");
        let file = env::temp_dir().join(format!("{}-{name}.day", std::process::id()));
        fs::write(&file, stream).ok()?;
        program.exists().then_some(Self { program, stream: file })
    }

    /// What the replay program prints.
    pub fn ours(&self) -> Vec<u8> {
        self.printed(self.program.as_os_str())
    }

    /// What the reference prints.
    pub fn theirs(&self) -> Vec<u8> {
        self.printed(env::current_exe().expect("this program").as_os_str())
    }

    fn printed(&self, program: &OsStr) -> Vec<u8> {
        let stream = fs::File::open(&self.stream).expect("the stream");
        let run = Command::new(program).env(AS_REPLAY, "1").stdin(stream).stderr(Stdio::inherit()).output();
        run.expect("a replay").stdout
    }
}

impl Drop for Replay {
    fn drop(&mut self) {
        let _ = fs::remove_file(&self.stream);
    }
}

/// Replays standard input by the reference, where this program was started for that.
pub fn is_replay() -> bool {
    if env::var_os(AS_REPLAY).is_none() {
        return false;
    }
    let mut stream = Vec::new();
    let _ = io::stdin().read_to_end(&mut stream);
    let _ = io::stdout().write_all(reference::replay(&stream).as_bytes());
    true
}
