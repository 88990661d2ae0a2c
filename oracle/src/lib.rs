//! The original caller and a second reader of document 01, with generated families to ask both.

pub mod answers;
pub mod bite;
pub mod callers;
pub mod cases;
pub mod combine;
pub mod compare;
pub mod driver;
pub mod generate;
pub mod model;
pub mod partner;
pub mod plain;
pub mod refusal;
pub mod sample;
pub mod sheet;
pub mod shrink;
pub mod text;
