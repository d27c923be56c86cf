//! The command texts: the graphs that `bench` times as files, for timing other builds on them.

use super::work::{Tables, Work};
use super::works;
use gutkavu::{operations, TEXT_BYTES};
use std::path::Path;

fn text_of(tables: &Tables) -> Result<Vec<u8>, String> {
    let mut text = vec![0; TEXT_BYTES];
    let written = operations::write(&tables.graph, &mut text);
    if written.number != 0 {
        return Err(format!("a graph is refused with {}", written.number));
    }
    text.truncate(written.length as usize);
    Ok(text)
}

/// Each graph as it is timed, and with `in` as the first instruction of each block.
fn files(work: &Work) -> Result<[(String, Vec<u8>); 2], String> {
    let name = format!("blocks-{}-registers-{}", work.blocks, work.registers);
    let reading = text_of(&work.reading)?;
    Ok([(format!("{name}.txt"), work.text.clone()), (format!("{name}-in.txt"), reading)])
}

/// Writes them into a folder, which is made where it is missing, and prints their names.
pub fn texts(folder: &str) -> Result<Vec<u8>, String> {
    let folder = Path::new(folder);
    let failed = |error: std::io::Error| format!("{}: {error}", folder.display());
    std::fs::create_dir_all(folder).map_err(failed)?;
    let mut names = String::new();
    for work in works()? {
        for (name, text) in files(&work)? {
            std::fs::write(folder.join(&name), text).map_err(failed)?;
            names += &(name + "\n");
        }
    }
    Ok(names.into_bytes())
}
