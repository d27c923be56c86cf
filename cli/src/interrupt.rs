//! Ctrl-C: a run is told to stop and answers what it has reached.

use crate::failure::Failure;
use std::process;
use std::sync::atomic::{AtomicBool, Ordering};
use std::sync::Arc;

pub struct Interrupt {
    came: Arc<AtomicBool>,
}

impl Interrupt {
    /// Catches it from now on. A second one ends the program at once.
    pub fn catch() -> Result<Interrupt, Failure> {
        let came = Arc::new(AtomicBool::new(false));
        let told = Arc::clone(&came);
        let handler = move || {
            if told.swap(true, Ordering::Relaxed) {
                process::exit(130);
            }
        };
        match ctrlc::set_handler(handler) {
            Ok(()) => Ok(Interrupt { came }),
            Err(error) => Err(Failure::Trouble(format!("Ctrl-C cannot be caught: {error}"))),
        }
    }

    pub fn has_come(&self) -> bool {
        self.came.load(Ordering::Relaxed)
    }
}
