//! The place of the published module, with stand-ins for the traits that it takes from the module
//! above it. They stand only in bounds that no recorded call reaches.

use poulpy_hal::layouts::Backend;

pub trait IntPolyInfos {}
pub trait GLWEInfos {}
pub trait GLWEToBackendRef<BE: Backend> {}
pub trait GLWEToBackendMut<BE: Backend> {}

include!(concat!(env!("OUT_DIR"), "/module.rs"));
