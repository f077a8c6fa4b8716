//! Where the program is. It is kept for a panic, which would otherwise leave
//! only its message, and written to a file for a crash inside the library,
//! which would leave nothing.

use std::fs;
use std::panic;
use std::path::Path;
use std::sync::{Mutex, MutexGuard, PoisonError};

static PLACE: Mutex<String> = Mutex::new(String::new());
static PANIC: Mutex<String> = Mutex::new(String::new());

fn lock(text: &Mutex<String>) -> MutexGuard<'_, String> {
    text.lock().unwrap_or_else(PoisonError::into_inner)
}

/// Keeps the message of a panic instead of printing it: a panic inside a list
/// of calls is a difference, which is made smaller first.
pub fn keep_panics() {
    panic::set_hook(Box::new(|panic| *lock(&PANIC) = panic.to_string()));
}

/// The message of the last panic, in one line.
pub fn last_panic() -> String {
    lock(&PANIC).replace('\n', " ")
}

/// A place that is about to be entered, and how to get there again.
pub fn enter(file: Option<&Path>, place: String) -> Result<(), String> {
    if let Some(file) = file {
        fs::write(file, format!("{place}\n"))
            .map_err(|error| format!("{}: cannot be written: {error}", file.display()))?;
    }
    *lock(&PLACE) = place;
    Ok(())
}

/// The place that was entered last.
pub fn place() -> String {
    lock(&PLACE).clone()
}
