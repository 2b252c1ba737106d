//! Pages as files: well-formed, with nothing left out, and fetching nothing.

mod drawn;
mod sample;
mod whole;
mod xml;
