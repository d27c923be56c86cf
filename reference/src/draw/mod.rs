//! The command draw: the machine that the proved library makes of a text, as a Graphviz file.

mod dot;
mod forms;
mod tables;
mod touching;

use gutkavu::{operations, GRAPH_WORDS, MACHINE_WORDS};
use tables::Tables;
use touching::Touching;

fn meaning(number: u32) -> &'static str {
    match number {
        1 => "text too long",
        2 => "no line form, or no line feed",
        3 => "a form not due here",
        4 => "register not below R",
        5 => "target not below B",
        _ => "refused",
    }
}

/// The tables of a text, by the proved library.
fn tables(text: &[u8]) -> Result<Tables, String> {
    let (mut graph, mut machine) = (vec![0; GRAPH_WORDS], vec![0; MACHINE_WORDS]);
    let read = operations::read(text, &mut graph);
    if read.number != 0 {
        let (number, line) = (read.number, read.line);
        return Err(format!("refused with number {number} at line {line}: {}", meaning(number)));
    }
    match operations::synthesise(&graph, &mut machine) {
        0 => Ok(Tables { graph, machine }),
        number => Err(format!("synthesis refused with number {number}")),
    }
}

/// The picture of a text, with the states that touch a register in a colour of their own.
pub fn draw(text: &[u8], register: Option<u32>) -> Result<Vec<u8>, String> {
    let tables = tables(text)?;
    let touching = register.map(|register| Touching::of(&tables, register)).transpose();
    let touching = touching.map_err(|refusal| refusal.to_string())?;
    Ok(dot::dot(&tables, touching.as_ref()).into_bytes())
}

#[cfg(test)]
mod tests;
