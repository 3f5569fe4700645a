//! The original detection module, unchanged, for programs that call it (../bench).

#[allow(dead_code)]
pub mod detection;
