//! Stand-in for `quarto_source_map`: spans of byte offsets, and a provenance builder that records its calls.

use std::ops;
use std::rc::Rc;

#[derive(Debug, Clone, Copy, PartialEq)]
pub struct FileId(pub usize);

#[derive(Debug, Clone, Copy, PartialEq)]
pub struct Location {
    pub offset: usize,
    pub row: usize,
    pub column: usize,
}

#[derive(Debug, Clone, Copy, PartialEq)]
pub struct Range {
    pub start: Location,
    pub end: Location,
}

/// A call on a [`ProvenanceBuilder`]: source bytes, and for a replacement its content length.
#[derive(Debug, Clone, PartialEq)]
pub enum Call {
    Verbatim(ops::Range<usize>),
    Replacement(ops::Range<usize>, usize),
}

#[derive(Debug, Clone, PartialEq)]
pub enum SourceInfo {
    Original {
        file_id: FileId,
        start_offset: usize,
        end_offset: usize,
    },
    Substring {
        parent: Rc<SourceInfo>,
        start_offset: usize,
        end_offset: usize,
    },
    /// What a provenance builder hands back. Only this stand-in has it.
    Calls(Vec<Call>),
}

impl SourceInfo {
    pub fn original(file_id: FileId, start_offset: usize, end_offset: usize) -> Self {
        Self::Original { file_id, start_offset, end_offset }
    }

    pub fn substring(parent: SourceInfo, start_offset: usize, end_offset: usize) -> Self {
        Self::Substring { parent: Rc::new(parent), start_offset, end_offset }
    }

    pub fn from_range(file_id: FileId, range: Range) -> Self {
        Self::original(file_id, range.start.offset, range.end.offset)
    }

    /// Named by the original for spans of different kinds, which no document without a parent has.
    pub fn combine(&self, _other: &SourceInfo) -> Self {
        unreachable!("the spans of a key and its value are of the same kind")
    }

    pub fn start_offset(&self) -> usize {
        self.offsets().start
    }

    pub fn end_offset(&self) -> usize {
        self.offsets().end
    }

    /// Named by a debug assertion of the original, which the reference build leaves out.
    pub fn length(&self) -> usize {
        self.offsets().len()
    }

    /// The recorded calls, in order; none for a span that no provenance builder made.
    pub fn calls(&self) -> &[Call] {
        match self {
            Self::Calls(calls) => calls,
            _ => &[],
        }
    }

    fn offsets(&self) -> ops::Range<usize> {
        match *self {
            Self::Original { start_offset, end_offset, .. } | Self::Substring { start_offset, end_offset, .. } => {
                start_offset..end_offset
            }
            Self::Calls(_) => unreachable!("recorded calls are read by `calls` alone"),
        }
    }
}

pub struct ProvenanceBuilder {
    calls: Vec<Call>,
}

impl ProvenanceBuilder {
    pub fn in_file(_file_id: FileId, _anchor: usize) -> Self {
        Self { calls: Vec::new() }
    }

    pub fn in_parent(_parent: SourceInfo, _anchor: usize) -> Self {
        Self { calls: Vec::new() }
    }

    pub fn verbatim(&mut self, source: ops::Range<usize>) {
        self.calls.push(Call::Verbatim(source));
    }

    pub fn replacement(&mut self, source: ops::Range<usize>, content: usize) {
        self.calls.push(Call::Replacement(source, content));
    }

    pub fn finish(self) -> SourceInfo {
        SourceInfo::Calls(self.calls)
    }
}
