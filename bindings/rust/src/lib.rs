//! Safe calls to the tree builder of quarto-yaml, which is written in Rattle and proved.
//!
//! From the text of a YAML file and the events of a YAML parser, [`build`] makes a record for each node (what it is, which bytes of the
//! file it occupies, where its tag is written, which node is its parent) and the pieces of each scalar: from which bytes of the file every
//! stretch of its value came. Nothing is assumed of the input: what is no sound document is refused with a [`Refusal`]. [`tree`] has an
//! example of going up and down; [`cursor_travel`] counts beforehand how far the cursor of a build goes.
//!
//! ```
//! use quarto_yaml::event::{Event, Style, encode};
//! use quarto_yaml::record::{Kind, PieceKind, Span};
//!
//! // The file is `note: 'it''s'`. A parser gives a mapping (its marker on the colon), a key and a value.
//! let text = b"note: 'it''s'";
//! let scalar = |index, style, value| {
//!     Event::Scalar { index, column: index, style, empty_span: false, tag: None, value }
//! };
//! let events = encode(&[
//!     Event::MappingStart { index: 4, tag: None },
//!     scalar(0, Style::Plain, "note"),
//!     scalar(6, Style::SingleQuoted, "it's"),
//!     Event::MappingEnd { index: 13 },
//! ])?;
//!
//! let catalogue = quarto_yaml::build(text, &events)?;
//! let note = catalogue.root().get("note").unwrap();
//! assert_eq!(note.kind(), Kind::String);
//! assert_eq!(note.text(), Some("it's"));
//! assert_eq!(note.span(), Span { start: 6, end: 13 });
//!
//! // The doubled quote stands for one: a replacement between two stretches that are verbatim.
//! let pieces: Vec<_> = note.pieces().unwrap().collect();
//! assert_eq!(pieces.len(), 3);
//! assert_eq!(pieces[1].kind, PieceKind::Replacement);
//! assert_eq!(pieces[1].source.of(text), Some(&b"''"[..]));
//! assert_eq!(pieces[1].content, 1);
//! # Ok::<(), Box<dyn std::error::Error>>(())
//! ```
//!
//! The archive comes from `tools/archive` of the repository. It is looked for where that leaves it, or in the directory that
//! QUARTO_YAML_LIB_DIR names when this package is built.

pub mod call;
pub mod event;
pub mod record;
pub mod refusal;
mod sys;
pub mod tree;

pub use call::{Built, Catalogue, Scalar, ScalarEvent, build, build_in, cursor_travel, scalar, scalar_in, scan_error};
pub use event::{Event, Style, Tag};
pub use record::{Kind, Payload, Piece, PieceKind, Pieces, Record, Span, TagInfo};
pub use refusal::Refusal;
pub use tree::{Node, Pair, Tree};
