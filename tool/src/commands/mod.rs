//! What the program does.

mod check;
mod journal;
mod lines;
mod list;
mod make;
mod output;
mod play;

pub use check::check;
pub use journal::journal;
pub use list::list;
pub use make::make;
pub use output::Output;
pub use play::play;

/// How a command ended: all was fine, something was refused or differs, or something could not be read.
#[derive(Clone, Copy, PartialEq, Eq)]
pub enum Ended {
    Fine,
    Refused,
    Unreadable,
}

impl Ended {
    pub fn of(fine: bool) -> Ended {
        if fine {
            Ended::Fine
        } else {
            Ended::Refused
        }
    }
}
