//! The Rust as judge: zCore's own task objects, driven by the recorder's commands. The program is
//! `main.rs`.

pub mod commands;
mod exceptions;
mod front;
pub mod harness;
mod reading;
pub mod records;
pub mod reply;
pub mod run;
mod tables;
