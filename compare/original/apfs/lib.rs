//! The modules of the original that the space check needs; build.rs puts them into the build directory.
#![allow(dead_code, unused_imports, clippy::all)]

include!(concat!(env!("OUT_DIR"), "/modules.rs"));

pub use bytes::format_uuid;
pub use error::{Error, Result};
pub use nx::Container;

impl Container {
    /// Loads the object map at an address, as opening a container loads its own.
    pub fn load_object_map(&self, address: u64) -> Result<()> {
        omap::Omap::load(&self.r, &self.r.read_object(address)?).map(|_| ())
    }
}
