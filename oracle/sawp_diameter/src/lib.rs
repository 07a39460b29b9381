//! The Rust file, unchanged, as the module `diameter`, and what the comparison asks of it as `diameter::inside`.

include!(concat!(env!("OUT_DIR"), "/declare.rs"));

/// The sha256 of the file that was built.
pub const SHA256: &str = env!("SAWP_DIAMETER_SHA256");
