//! The program `score`: reads, writes, checks and plays scores. It adds no meaning of its own: what it says of a score
//! comes from the library's answers or is checked against them.

pub mod instants;
pub mod library;
pub mod names;
pub mod open;
pub mod origins;
pub mod problem;
pub mod refusal;
pub mod score;
mod sizes;
pub mod switches;
pub mod text;
pub mod waiting;
