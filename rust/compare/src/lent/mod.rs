//! Calls on lent words and buffers: what they have to answer and to leave behind.

pub mod answer;
pub mod fill;
pub mod put;
pub mod tables;
