//! The library beside the Rust original, both run: what the comparison, the benchmark and the recorder
//! share. Nothing here is the library's own code but the binding in `bindings/rust`.

pub mod binding;
pub mod case;
pub mod examples;
pub mod generate;
pub mod groups;
pub mod lend;
pub mod merging;
pub mod model;
pub mod oracle;
pub mod random;
pub mod reading;
pub mod task;
pub mod training;
