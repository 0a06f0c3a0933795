//! The crate around the copied files: it names them and holds nothing else.

#[path = "../../../target/libtw2/teehistorian/src/bitmagic.rs"]
mod bitmagic;
#[path = "../../../target/libtw2/teehistorian/src/format/mod.rs"]
pub mod format;
#[path = "../../../target/libtw2/teehistorian/src/raw.rs"]
pub mod raw;
