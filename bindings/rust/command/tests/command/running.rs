//! Running the command.

use std::env;
use std::ffi::OsStr;
use std::fs;
use std::io::Write;
use std::path::{Path, PathBuf};
use std::process::{Command, Stdio};
use std::sync::atomic::{AtomicUsize, Ordering};
use std::thread;

/// The command: the one that `KIESELBROT_COMMAND` names, as an installed one, or the one
/// that was built.
pub fn program() -> PathBuf {
    let built = env!("CARGO_BIN_EXE_kieselbrot");
    env::var_os("KIESELBROT_COMMAND").map_or(built.into(), PathBuf::from)
}

/// What the command did.
#[derive(Debug)]
pub struct Ran {
    pub status: i32,
    pub out: String,
    pub error: String,
}

/// Runs the command with this input; it never panics, and says nothing that is not UTF-8.
#[track_caller]
pub fn run_on(arguments: &[impl AsRef<OsStr>], input: &[u8]) -> Ran {
    let mut command = Command::new(program())
        .args(arguments)
        .stdin(Stdio::piped())
        .stdout(Stdio::piped())
        .stderr(Stdio::piped())
        .spawn()
        .expect("the command runs");
    let mut to = command.stdin.take().expect("its input");
    let output = thread::scope(|scope| {
        scope.spawn(move || {
            // It may not read its input.
            let _ = to.write_all(input);
        });
        command.wait_with_output().expect("it ends")
    });
    let ran = Ran {
        status: output.status.code().expect("no signal ended it"),
        out: String::from_utf8(output.stdout).expect("UTF-8"),
        error: String::from_utf8(output.stderr).expect("UTF-8"),
    };
    assert!((0..=3).contains(&ran.status), "{}", ran.error);
    assert!(!ran.error.contains("panicked"), "{}", ran.error);
    ran
}

#[track_caller]
pub fn run(arguments: &[impl AsRef<OsStr>]) -> Ran {
    run_on(arguments, b"")
}

/// A sample order.
pub fn sample(name: &str) -> PathBuf {
    Path::new(env!("CARGO_MANIFEST_DIR"))
        .join("../../samples")
        .join(name)
}

/// A file to try, removed when it is dropped.
pub struct Try(pub PathBuf);

impl Try {
    pub fn new(content: &[u8]) -> Self {
        static NEXT: AtomicUsize = AtomicUsize::new(0);
        let next = NEXT.fetch_add(1, Ordering::Relaxed);
        let name = format!("kieselbrot-command-{}-{next}", std::process::id());
        let path = std::env::temp_dir().join(name);
        fs::write(&path, content).expect("a file to try");
        Self(path)
    }

    pub fn path(&self) -> &str {
        self.0.to_str().expect("UTF-8")
    }
}

impl Drop for Try {
    fn drop(&mut self) {
        let _ = fs::remove_file(&self.0);
    }
}
