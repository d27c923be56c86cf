//! Icarus Verilog: compiles a source and runs it.

use std::fs;
use std::path::{Path, PathBuf};
use std::process::{self, Command, Output};
use std::sync::atomic::{AtomicUsize, Ordering};

/// The names of its two programs.
pub struct Icarus {
    pub compiler: &'static str,
    pub runner: &'static str,
}

pub const ICARUS: Icarus = Icarus { compiler: "iverilog", runner: "vvp" };

/// A temporary folder that goes with its owner.
struct Folder(PathBuf);

impl Folder {
    fn new() -> Result<Folder, String> {
        static MADE: AtomicUsize = AtomicUsize::new(0);
        let number = MADE.fetch_add(1, Ordering::Relaxed);
        let name = format!("reference-simulate-{}-{number}", process::id());
        let path = std::env::temp_dir().join(name);
        fs::create_dir(&path).map_err(|error| format!("{}: {error}", path.display()))?;
        Ok(Folder(path))
    }
}

impl Drop for Folder {
    fn drop(&mut self) {
        // A folder that stays is no reason to fail.
        let _ = fs::remove_dir_all(&self.0);
    }
}

/// What a program printed. One that does not start, fails, or has anything to say is an error.
fn printed(program: &str, arguments: &[&str], folder: &Path) -> Result<String, String> {
    let Output { status, stdout, stderr } =
        Command::new(program).args(arguments).current_dir(folder).output().map_err(|error| {
            format!("{program} does not start ({error}): tools/install-packages installs it")
        })?;
    let (printed, said) = (String::from_utf8_lossy(&stdout), String::from_utf8_lossy(&stderr));
    match status.success() && said.is_empty() {
        true => Ok(printed.into_owned()),
        false => Err(format!("{program} failed, {status}:\n{said}{printed}")),
    }
}

impl Icarus {
    /// The first line that the compiler says of itself.
    pub fn version(&self) -> Result<String, String> {
        let text = printed(self.compiler, &["-V"], &std::env::temp_dir())?;
        Ok(text.lines().next().unwrap_or_default().trim_end_matches(" ()").into())
    }

    /// What a source prints when it is run.
    pub fn simulate(&self, source: &str) -> Result<String, String> {
        let folder = Folder::new()?;
        let path = folder.0.join("machine.sv");
        fs::write(&path, source).map_err(|error| format!("{}: {error}", path.display()))?;
        let compiled = ["-g2012", "-o", "machine.vvp", "machine.sv"];
        printed(self.compiler, &compiled, &folder.0)?;
        printed(self.runner, &["-n", "machine.vvp"], &folder.0)
    }
}
