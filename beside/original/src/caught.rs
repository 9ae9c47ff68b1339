//! Errors and panics of the original as values.

use std::{
    cell::{Cell, RefCell},
    panic::{catch_unwind, AssertUnwindSafe, PanicHookInfo},
    sync::Once,
};

/// Where a panic stands, as file and line of the original, and what it says.
#[derive(Clone, Debug, PartialEq, Eq)]
pub struct Panic {
    pub at: String,
    pub said: String,
}

/// The original gave no answer.
#[derive(Clone, Debug, PartialEq, Eq)]
pub enum Trouble {
    /// It returned an error, or none where an answer stands.
    Error(String),
    Panic(Panic),
    /// It would not have come back, so it was not called.
    Endless,
}

pub type Said<T> = Result<T, Trouble>;

thread_local! {
    static CAUGHT: Cell<bool> = const { Cell::new(false) };
    static LAST: RefCell<Option<Panic>> = const { RefCell::new(None) };
}

fn seen(info: &PanicHookInfo) -> Panic {
    let at = info.location().map_or("elsewhere".to_string(), |l| {
        // The original's files lie in the folder `tree` of the build (build.rs).
        let file = l.file().rsplit_once("/tree/").map_or(l.file(), |(_, file)| file);
        format!("{file}:{}", l.line())
    });
    let said = match (info.payload().downcast_ref::<String>(), info.payload().downcast_ref::<&str>()) {
        (Some(said), _) => said.clone(),
        (_, Some(said)) => said.to_string(),
        _ => String::new(),
    };
    Panic { at, said }
}

/// The answer of a call into the original.
pub fn caught<T>(call: impl FnOnce() -> T) -> Said<T> {
    static QUIET: Once = Once::new();
    QUIET.call_once(|| {
        let before = std::panic::take_hook();
        std::panic::set_hook(Box::new(move |info| {
            if CAUGHT.get() {
                LAST.set(Some(seen(info)));
            } else {
                before(info);
            }
        }));
    });
    CAUGHT.set(true);
    let r = catch_unwind(AssertUnwindSafe(call));
    CAUGHT.set(false);
    r.map_err(|_| {
        let unseen = || Panic { at: "another thread".to_string(), said: String::new() };
        Trouble::Panic(LAST.take().unwrap_or_else(unseen))
    })
}

/// The same for a call that may return an error.
pub fn tried<T>(call: impl FnOnce() -> anyhow::Result<T>) -> Said<T> {
    caught(call)?.map_err(|e| Trouble::Error(format!("{e:#}")))
}
