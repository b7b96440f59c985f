//! Scalars of some hundred bytes. The port passes over such stretches many bytes at a time, so what ends one stands at any
//! place of them, and markers are far from the start.

use crate::rng::Rng;
use crate::run::{Run, STYLES, characters};
use crate::source;
use framing::event::Scalar;

/// Letters that go together in a stretch. A blank stands before a letter only.
const ALPHABETS: [&[&str]; 6] = [
    &["a", "b", " c"],
    &["a", "b", " c", "é", "ß", " ö"],
    &["λ", "ό", " γ", ","],
    &["日", "の", "ポ", "。", "a"],
    &["a", " b", "😀", " 🔧", "⚠"],
    &["a", " b", "–", "“", "”", "…", "\u{200b}", " ―", "Å"],
];

pub fn put_random(run: &mut Run) {
    let style = run.rng.pick(&STYLES);
    let mut source = String::new();
    let mut value = String::new();
    for _ in 0..=run.rng.below(3) {
        let stretch = stretch(&mut run.rng);
        source += &stretch;
        value += &stretch;
        if run.rng.once_in(2) {
            let (part, read) = source::random(&mut run.rng, style, 2);
            source += &part;
            value += &read;
        }
    }
    let before = stretch(&mut run.rng);
    let after = stretch(&mut run.rng);
    let text = format!("{before}: {}\n{after}", source::quoted(&mut run.rng, style, &source));
    let scalar = Scalar {
        index: characters(&before) + 2,
        column: run.rng.below(4) as u32,
        style,
        value: value.as_bytes(),
        ..Scalar::default()
    };
    run.put_scalar(&text, scalar);
}

fn stretch(rng: &mut Rng) -> String {
    let alphabet = rng.pick(&ALPHABETS);
    rng.word(alphabet, 100)
}
