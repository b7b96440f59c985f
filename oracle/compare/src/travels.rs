//! `cursor_travel`, on the cases of the family `travels` and on documents.

use crate::held::{BEFORE, BEFORE_BYTE, Lent, Memory};
use answers::travel::{markers, travel};
use framing::Case;

/// The call: a text and markers.
pub type Call = fn(&[u8], &[u32]) -> (u32, u64);

/// A text, and the markers that the cursor goes to.
#[derive(Debug, Clone, PartialEq)]
pub struct Travel {
    pub text: Vec<u8>,
    pub markers: Vec<u32>,
}

impl Travel {
    /// A case of the family.
    pub fn of(case: &Case) -> Self {
        Self { text: case.text.clone(), markers: framing::numbers(&case.events) }
    }

    pub fn of_document(case: &Case) -> Self {
        Self { text: case.text.clone(), markers: markers(&case.events) }
    }

    /// What the second implementation answers.
    pub fn expected(&self) -> (u32, u64) {
        travel(&self.text, &self.markers)
    }
}

/// What a call answers, and whether all that it was lent is as before.
#[derive(Debug, PartialEq)]
pub struct Outcome {
    pub returned: (u32, u64),
    pub kept: bool,
}

pub fn outcome(call: Call, travel: &Travel, memory: Memory) -> Outcome {
    let mut text = Lent::new(&travel.text, BEFORE_BYTE, memory);
    let mut markers = Lent::new(&travel.markers, BEFORE, memory);
    let returned = call(text.lent(), markers.lent());
    let kept = text.lent() == travel.text && markers.lent() == travel.markers;
    Outcome { returned, kept: kept && text.is_guarded(BEFORE_BYTE) && markers.is_guarded(BEFORE) }
}

/// Whether a call does not answer as the second implementation does.
pub fn differs(call: Call, travel: &Travel, memory: Memory) -> bool {
    outcome(call, travel, memory) != Outcome { returned: travel.expected(), kept: true }
}
