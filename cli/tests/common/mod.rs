//! What all tests use: runs of the command, folders for a while, texts.
#![allow(dead_code)] // each file of tests uses a part of it

use reference::generate::graphs;
use reference::print::print;
use reference::random::Random;
use serde_json::Value;
use std::ffi::OsStr;
use std::fs;
use std::io::Write;
use std::path::{Path, PathBuf};
use std::process::{self, Child, Command, Output, Stdio};
use std::sync::atomic::{AtomicUsize, Ordering};
use std::thread;
use std::time::Duration;

/// What a run of the command printed, and its exit status.
#[derive(Debug, PartialEq, Eq)]
pub struct Ran {
    pub status: i32,
    pub out: String,
    pub err: String,
}

impl Ran {
    pub fn of(output: Output) -> Ran {
        let text = |bytes| String::from_utf8(bytes).expect("the command prints text");
        let status = output.status.code().expect("it ends by itself");
        Ran { status, out: text(output.stdout), err: text(output.stderr) }
    }

    /// What a run printed that went well.
    pub fn answer(self) -> String {
        assert_eq!((self.status, &self.err[..]), (0, ""), "{}", self.out);
        self.out
    }

    /// What a run says that ends with a status and answers nothing.
    pub fn message(self, status: i32) -> String {
        assert_eq!((self.status, &self.out[..]), (status, ""), "{}", self.err);
        assert!(self.err.ends_with('\n'), "{}", self.err);
        self.err
    }

    /// The values of JSON that it printed, a line each.
    pub fn json(&self) -> Vec<Value> {
        let value = |line| serde_json::from_str(line).expect("a line of JSON");
        self.out.lines().map(value).collect()
    }

    /// The number of a refusal that is told in JSON, and in no other way.
    pub fn refusal(&self) -> u64 {
        assert_eq!((self.status, &self.err[..]), (1, ""), "{}", self.out);
        let [value] = &self.json()[..] else { panic!("one value, not {}", self.out) };
        value["refusal"].as_u64().expect("a number")
    }
}

/// The project's folder.
pub fn project() -> &'static Path {
    Path::new(concat!(env!("CARGO_MANIFEST_DIR"), "/.."))
}

pub fn binary() -> &'static str {
    env!("CARGO_BIN_EXE_gutkavu")
}

/// The command, to be run in the project's folder.
pub fn command<A: AsRef<OsStr>>(arguments: &[A]) -> Command {
    let mut command = Command::new(binary());
    command.args(arguments).current_dir(project()).stdin(Stdio::null());
    command
}

/// Arguments that are parted by spaces; `''` is an empty one.
pub fn parted(line: &str) -> Vec<&str> {
    line.split_whitespace().map(|one| if one == "''" { "" } else { one }).collect()
}

pub fn gutkavu<A: AsRef<OsStr>>(arguments: &[A]) -> Ran {
    Ran::of(command(arguments).output().expect("the command starts"))
}

/// Runs it on standard input, of which it need not read all.
pub fn with_input(arguments: &[&str], input: &[u8]) -> Ran {
    let mut command = command(arguments);
    command.stdin(Stdio::piped()).stdout(Stdio::piped()).stderr(Stdio::piped());
    let mut child = command.spawn().expect("the command starts");
    let mut pipe = child.stdin.take().expect("a pipe");
    let bytes = input.to_vec();
    let writer = thread::spawn(move || pipe.write_all(&bytes));
    let ran = Ran::of(child.wait_with_output().expect("it ends"));
    let _ = writer.join().expect("the writer ends");
    ran
}

/// A program that knows this command as `gutkavu`.
fn beside(program: &str, folder: &Path) -> Command {
    let bin = Path::new(binary()).parent().expect("a folder").display();
    let path = std::env::var("PATH").unwrap_or_default();
    let mut command = Command::new(program);
    command.env("PATH", format!("{bin}:{path}")).current_dir(folder).stdin(Stdio::null());
    command
}

/// Runs a line of a shell in which `gutkavu` is this command.
pub fn shell(line: &str, folder: &Path) -> Ran {
    Ran::of(beside("bash", folder).args(["-c", line]).output().expect("bash starts"))
}

/// What a terminal with these settings shows of such a line, in the project's folder.
pub fn on_terminal(line: &str, settings: &[(&str, &str)]) -> String {
    let mut script = beside("script", project());
    script.args(["-qec", line, "/dev/null"]).env("SHELL", "/bin/bash");
    script.env("TERM", "xterm").env_remove("NO_COLOR").envs(settings.iter().copied());
    Ran::of(script.output().expect("script starts")).out
}

/// Starts it, to be broken off or read in part.
pub fn start(arguments: &[&str]) -> Child {
    let mut command = command(arguments);
    command.stdout(Stdio::piped()).stderr(Stdio::piped());
    command.spawn().expect("the command starts")
}

/// Ctrl-C, a while after the command has begun to catch it.
pub fn interrupt(child: &Child) {
    for _ in 0..100 {
        if catches_interrupts(child.id()) {
            break;
        }
        thread::sleep(Duration::from_millis(20));
    }
    thread::sleep(Duration::from_millis(150));
    let pid = child.id().to_string();
    assert!(Command::new("kill").args(["-INT", &pid]).status().expect("kill starts").success());
}

/// As Linux tells it; signal 2 is bit 1.
fn catches_interrupts(pid: u32) -> bool {
    let status = fs::read_to_string(format!("/proc/{pid}/status")).unwrap_or_default();
    let caught = status.lines().find_map(|line| line.strip_prefix("SigCgt:"));
    let caught = caught.and_then(|mask| u64::from_str_radix(mask.trim(), 16).ok());
    caught.is_some_and(|mask| mask & 2 != 0)
}

/// An empty folder that goes when it is dropped.
pub struct Scratch(pub PathBuf);

impl Scratch {
    /// Tests of one process run side by side: each folder has a number of its own.
    pub fn new(name: &str) -> Scratch {
        static MADE: AtomicUsize = AtomicUsize::new(0);
        let number = MADE.fetch_add(1, Ordering::Relaxed);
        let name = format!("gutkavu-{name}-{}-{number}", process::id());
        let folder = std::env::temp_dir().join(name);
        let _ = fs::remove_dir_all(&folder);
        fs::create_dir_all(&folder).expect("a folder");
        Scratch(folder)
    }

    /// One in which the examples are found as in the project's folder.
    pub fn with_examples(name: &str) -> Scratch {
        let scratch = Scratch::new(name);
        let examples = project().join("examples");
        std::os::unix::fs::symlink(examples, scratch.0.join("examples")).expect("a link");
        scratch
    }

    /// The name of a file in it.
    pub fn path(&self, name: &str) -> String {
        self.0.join(name).into_os_string().into_string().expect("a name")
    }

    /// A file in it, and its name.
    pub fn file(&self, name: &str, bytes: &[u8]) -> String {
        let path = self.path(name);
        fs::write(&path, bytes).expect("a file");
        path
    }

    /// What a file in it holds.
    pub fn text(&self, name: &str) -> String {
        fs::read_to_string(self.0.join(name)).expect("a file")
    }

    pub fn is_empty(&self) -> bool {
        fs::read_dir(&self.0).expect("the folder").count() == 0
    }
}

impl Drop for Scratch {
    fn drop(&mut self) {
        // A folder that stays is no reason to fail.
        let _ = fs::remove_dir_all(&self.0);
    }
}

/// The text of a file of the project.
pub fn text_of(name: &str) -> String {
    fs::read_to_string(project().join(name)).expect("a file of the project")
}

/// Name and text of every example.
pub fn examples() -> Vec<(String, String)> {
    let files = fs::read_dir(project().join("examples")).expect("the examples");
    let names = files.map(|file| file.expect("a file").file_name().into_string().expect("a name"));
    let graphs = names.filter(|name| name.ends_with(".txt")).map(|name| format!("examples/{name}"));
    let mut all: Vec<(String, String)> =
        graphs.map(|name| (name.clone(), text_of(&name))).collect();
    all.sort();
    assert!(all.len() >= 10, "the examples are missing");
    all
}

/// Texts of random graphs of any size, the same for a seed.
pub fn generated(seed: u64, count: usize) -> Vec<String> {
    let mut random = Random::new(seed);
    (0..count).map(|_| print(&graphs::graph(&mut random))).collect()
}

/// The numbers of a list in JSON.
pub fn numbers(value: &Value) -> Vec<usize> {
    let number = |one: &Value| one.as_u64().expect("a number") as usize;
    value.as_array().expect("a list").iter().map(number).collect()
}
