//! Calls that may panic, and where they did.

use std::{
    cell::RefCell,
    panic::{self, AssertUnwindSafe},
    sync::Once,
};

/// A panic of the crate: the file's name, its line, the message.
#[derive(Clone, Debug)]
pub struct Panic {
    pub file: String,
    pub line: u32,
    pub message: String,
}

thread_local! {
    static LAST: RefCell<Option<Panic>> = const { RefCell::new(None) };
}

static QUIET: Once = Once::new();

/// The call's result, or the panic that ended it; nothing is printed.
pub fn caught<T>(call: impl FnOnce() -> T) -> Result<T, Panic> {
    QUIET.call_once(|| panic::set_hook(Box::new(keep)));
    panic::catch_unwind(AssertUnwindSafe(call)).map_err(|_| {
        LAST.take().expect("the hook has seen it")
    })
}

fn keep(info: &panic::PanicHookInfo<'_>) {
    let (file, line) = info.location().map_or(("", 0), |l| (l.file(), l.line()));
    let message = info.payload_as_str().unwrap_or_default().to_string();
    let file = file.rsplit('/').next().unwrap_or_default().to_string();
    LAST.set(Some(Panic { file, line, message }));
}

impl Panic {
    /// Whether a sum or a product passed its type's end.
    pub fn is_overflow(&self) -> bool {
        ["attempt to multiply with overflow", "attempt to add with overflow"].contains(&self.message.as_str())
    }

    /// In one line: where, and the first words of the message.
    pub fn told(&self) -> String {
        let words: String = self.message.chars().take(60).map(|c| if c == '\n' { ' ' } else { c }).collect();
        format!("{}:{} {words}", self.file, self.line)
    }
}
