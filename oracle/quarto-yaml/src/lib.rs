//! The original builder. The modules are the published files, unchanged; this file only declares them.

#[rustfmt::skip]
mod error;
#[rustfmt::skip]
mod parser;
#[rustfmt::skip]
mod yaml_with_source_info;

pub use error::{Error, Result};
pub use parser::{file_id_for_filename, parse, parse_file, parse_with_parent};
pub use quarto_source_map::SourceInfo;
pub use yaml_with_source_info::{YamlHashEntry, YamlWithSourceInfo};
