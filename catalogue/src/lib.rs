//! The catalogue of a YAML file: the parts of the command, for its tests as well.

pub mod convert;
pub mod document;
pub mod failure;
pub mod input;
pub mod json;
pub mod libyaml;
pub mod marked;
pub mod quote;
pub mod subcommand;
pub mod table;
pub mod visible;
