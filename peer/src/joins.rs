//! Whether links may join and leave, which is document 02's change 5; `--no-joins` says no.

use std::sync::atomic::{AtomicBool, Ordering};

static ALLOWED: AtomicBool = AtomicBool::new(true);

pub fn forbid() {
    ALLOWED.store(false, Ordering::Relaxed);
}

#[inline]
pub fn allowed() -> bool {
    ALLOWED.load(Ordering::Relaxed)
}
