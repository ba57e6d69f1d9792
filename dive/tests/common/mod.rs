//! The program, run on the sample formulas.

use std::{
    ffi::OsStr,
    fs,
    path::{Path, PathBuf},
    process::{Command, Output, Stdio},
};

/// The repository's root, in which the program is run.
pub fn root() -> PathBuf {
    Path::new(env!("CARGO_MANIFEST_DIR")).join("..")
}

/// An empty folder of a test's own.
pub fn folder(test: &str) -> PathBuf {
    let folder = Path::new(env!("CARGO_TARGET_TMPDIR")).join(test);
    let _ = fs::remove_dir_all(&folder);
    fs::create_dir_all(&folder).expect("a folder");
    folder
}

/// What came of a run of the program.
#[derive(Debug)]
pub struct Ended {
    pub code: i32,
    pub printed: String,
    pub remarked: String,
}

impl Ended {
    fn of(output: &Output) -> Self {
        let text = |bytes: &[u8]| String::from_utf8_lossy(bytes).into_owned();
        Ended {
            code: output.status.code().expect("an exit code"),
            printed: text(&output.stdout),
            remarked: text(&output.stderr),
        }
    }

    /// What was printed by a run that went well.
    #[track_caller]
    pub fn done(self) -> String {
        assert_eq!(self.code, 0, "{}", self.remarked);
        self.printed
    }

    /// What was said by a run that ended with this code and printed nothing.
    #[track_caller]
    pub fn failed(self, code: i32) -> String {
        assert_eq!(self.code, code, "{}{}", self.printed, self.remarked);
        assert_eq!(self.printed, "");
        self.remarked
    }
}

/// Runs the program with these words.
pub fn dive<W: AsRef<OsStr>>(words: impl IntoIterator<Item = W>) -> Ended {
    let mut command = Command::new(env!("CARGO_BIN_EXE_dive"));
    let output = command
        .args(words)
        .current_dir(root())
        .stdin(Stdio::null())
        .output();
    Ended::of(&output.expect("the program starts"))
}

/// Runs the program with the words of a line.
pub fn line(line: &str) -> Ended {
    dive(line.split_whitespace())
}
