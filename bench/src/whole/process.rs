//! Runs a program on an input, and takes the time that it works.

use std::io::Write;
use std::path::PathBuf;
use std::process::{Command, Stdio};
use std::time::Duration;

/// A program and its arguments.
pub struct Program {
    pub path: PathBuf,
    pub words: Vec<&'static str>,
}

/// The Rattle program, where `run` has built it, and the Rust one, which is this program with a word.
pub fn both() -> [Program; 2] {
    let path = std::env::var_os("BAY").expect("bench/run says where the bay program is");
    let rattle = Program {
        path: path.into(),
        words: vec![],
    };
    let rust = Program {
        path: std::env::current_exe().expect("a path"),
        words: vec!["bay"],
    };
    [rattle, rust]
}

/// What a program wrote, and how long it worked, in its own code and in the system's.
pub struct Ran {
    pub written: Vec<u8>,
    pub took: Duration,
}

impl Program {
    pub fn run(&self, input: &[u8]) -> Ran {
        let before = children();
        let mut child = Command::new(&self.path)
            .args(&self.words)
            .stdin(Stdio::piped())
            .stdout(Stdio::piped())
            // why it refuses; the line on standard output is compared
            .stderr(Stdio::null())
            .spawn()
            .expect("the program starts");
        // an input fits the pipe; what is too long for the program need not be read to its end
        let _ = child.stdin.take().expect("a pipe").write_all(input);
        let output = child.wait_with_output().expect("the program ends");
        assert!(output.status.success(), "{}", self.path.display());
        Ran {
            written: output.stdout,
            took: children() - before,
        }
    }
}

/// C's `struct timeval`.
#[repr(C)]
#[derive(Default)]
struct Time {
    seconds: i64,
    micros: i64,
}

/// C's `struct rusage`: two times, and fourteen counts that are not read here.
#[repr(C)]
#[derive(Default)]
struct Usage {
    user: Time,
    system: Time,
    counts: [i64; 14],
}

const CHILDREN: i32 = -1;

unsafe extern "C" {
    fn getrusage(who: i32, usage: &mut Usage) -> i32;
}

/// How long all programs that this one ran and waited for were at work.
fn children() -> Duration {
    let mut usage = Usage::default();
    // SAFETY: the struct is the C library's, and it is borrowed for the call.
    unsafe { getrusage(CHILDREN, &mut usage) };
    let time = |it: Time| Duration::new(it.seconds as u64, 1000 * it.micros as u32);
    time(usage.user) + time(usage.system)
}
