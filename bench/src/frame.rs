//! What the comparison has of frames: real ones, how one is made, and the crate's answers.

#![allow(dead_code)]

#[path = "../../compare/src/frame/known.rs"]
pub mod known;
#[path = "../../compare/src/frame/make.rs"]
pub mod make;
#[path = "../../compare/src/frame/oracle.rs"]
pub mod oracle;
#[path = "../../compare/src/frame/real.rs"]
pub mod real;
