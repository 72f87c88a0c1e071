//! Another build of the engine, loaded from a shared object: a controller's library before its update, or after. It has the calls of
//! include/yshturpa.h, and a run by it is made as `yshturpa` makes one by the library that it is linked with.
#![deny(unsafe_code)]

mod calls;
mod run;

pub use calls::Library;
pub use run::Run;
