//! Refusals 8 and 9, from the two panics of the reference that mean them.

use super::published::ANALYZE;
use crate::reading::Refusal;
use std::cell::{Cell, RefCell};
use std::panic::{self, AssertUnwindSafe, PanicHookInfo};
use std::sync::Once;

/// What the reference gave back, or refusal 8 or 9.
pub type Caught<T> = Result<T, Refusal>;

thread_local! {
    static INSIDE: Cell<bool> = const { Cell::new(false) };
    static LAST: RefCell<Result<Refusal, String>> = const { RefCell::new(Err(String::new())) };
}

/// Runs the reference and takes its two expected panics for refusals.
///
/// # Panics
/// On any other panic, which is an error of the harness.
pub fn caught<T>(run: impl FnOnce() -> T) -> Caught<T> {
    install_hook();
    INSIDE.set(true);
    let result = panic::catch_unwind(AssertUnwindSafe(run));
    INSIDE.set(false);
    result.map_err(|_| match LAST.replace(Err(String::new())) {
        Ok(refusal) => refusal,
        Err(words) => panic!("the reference panicked in a way that is no refusal: {words}"),
    })
}

/// Quiet while the reference runs, as before otherwise.
fn install_hook() {
    static HOOK: Once = Once::new();
    HOOK.call_once(|| {
        let before = panic::take_hook();
        panic::set_hook(Box::new(move |info| {
            if INSIDE.get() {
                LAST.set(refusal(info).ok_or_else(|| info.to_string()));
            } else {
                before(info);
            }
        }));
    });
}

/// 8 for a size assertion of the published text; 9 for an unwrap on a line that makes a checked sum.
fn refusal(info: &PanicHookInfo<'_>) -> Option<Refusal> {
    let place = info.location()?;
    if !place.file().ends_with("analyze.rs") {
        return None;
    }
    let line = ANALYZE.lines().nth(place.line() as usize - 1)?;
    let words = info.payload_as_str()?;
    if words.starts_with("assertion `left == right` failed") && line.contains("assert_eq!(max_size")
    {
        Some(Refusal::Outgrown)
    } else if words.contains("on a `None` value") && line.contains("checked_add") {
        Some(Refusal::PastBits)
    } else {
        None
    }
}

#[cfg(test)]
mod tests {
    use super::caught;

    #[test]
    fn what_does_not_panic_is_handed_back() {
        assert_eq!(caught(|| 7), Ok(7));
    }

    #[test]
    #[should_panic(expected = "in a way that is no refusal")]
    fn another_unwrap_is_no_refusal() {
        let _ = caught(|| "x".parse::<u32>().ok().unwrap());
    }

    #[test]
    #[should_panic(expected = "in a way that is no refusal")]
    fn another_assertion_is_no_refusal() {
        let _ = caught(|| assert_eq!(1, 2));
    }
}
