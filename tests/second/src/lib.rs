//! A second engine, written from the document alone, and what the test programs share.

pub mod answer;
pub mod calls;
pub mod chains;
pub mod circles;
pub mod clash;
pub mod decoded;
pub mod draft;
pub mod engine;
pub mod every_order;
pub mod generate;
pub mod guarded;
pub mod lawful;
pub mod lent;
pub mod oracle;
pub mod passes;
pub mod random;
pub mod sample;
pub mod scenes;
pub mod scratch;
pub mod sequence;
pub mod settings;
pub mod tests;
pub mod translate;
pub mod weight;
pub mod words;
