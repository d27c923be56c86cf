//! Graphviz: makes an image of a picture in the dot language.

use std::io::Write;
use std::path::Path;
use std::process::{Command, Output, Stdio};
use std::thread;

/// What a picture's file holds.
#[derive(Clone, Copy, Debug, PartialEq, Eq)]
pub enum Format {
    /// The picture in the dot language.
    Text,
    Svg,
    Png,
    Pdf,
}

impl Format {
    /// The format that a file's ending asks for.
    pub fn of(path: &Path) -> Option<Format> {
        match path.extension()?.to_str()?.to_ascii_lowercase().as_str() {
            "dot" | "gv" => Some(Format::Text),
            "svg" => Some(Format::Svg),
            "png" => Some(Format::Png),
            "pdf" => Some(Format::Pdf),
            _ => None,
        }
    }

    /// Graphviz's option for it.
    fn option(self) -> &'static str {
        match self {
            Format::Text => "-Tdot",
            Format::Svg => "-Tsvg",
            Format::Png => "-Tpng",
            Format::Pdf => "-Tpdf",
        }
    }
}

/// The bytes of a picture's file.
pub fn image(picture: &str, format: Format) -> Result<Vec<u8>, String> {
    if format == Format::Text {
        return Ok(picture.as_bytes().to_vec());
    }
    let Output { status, stdout, stderr } = answer(picture, format)?;
    match status.success() {
        true => Ok(stdout),
        false => Err(format!("dot failed ({status}): {}", String::from_utf8_lossy(&stderr).trim())),
    }
}

/// What dot answers to a picture.
pub(super) fn answer(picture: &str, format: Format) -> Result<Output, String> {
    let child = Command::new("dot")
        .arg(format.option())
        .stdin(Stdio::piped())
        .stdout(Stdio::piped())
        .stderr(Stdio::piped())
        .spawn();
    let mut child = child.map_err(|error| {
        format!("dot does not start ({error}): tools/install-packages dot installs Graphviz")
    })?;
    let mut pipe = child.stdin.take().expect("standard input is a pipe");
    let answer = thread::scope(|scope| {
        // A writer of its own, as dot may answer before it has read all. Where it stops reading,
        // its exit status tells.
        scope.spawn(move || pipe.write_all(picture.as_bytes()));
        child.wait_with_output()
    });
    answer.map_err(|error| format!("dot: {error}"))
}
