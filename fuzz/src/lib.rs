//! The engine as it is linked by apps (`engine`), for the programs here: `fuzz` makes random calls, `replay` performs a script, `days`
//! keeps sessions between processes.

#[cfg(feature = "engine")]
pub mod engine;

/// The reference in the engine's place, to try the programs without an archive.
#[cfg(not(feature = "engine"))]
pub mod engine {
    pub use reference::answers::Reference as Engine;
}
