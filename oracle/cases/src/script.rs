//! Words in several scripts, and sentences of them.

use crate::rng::Rng;

pub struct Script {
    pub name: &'static str,
    words: &'static [&'static str],
    /// Between words.
    space: &'static str,
    stop: &'static str,
}

pub const SCRIPTS: [Script; 5] = [
    Script {
        name: "English",
        words: &[
            "maintain", "the", "pump", "as", "table", "says", "and", "close", "valve", "before", "opening", "cover",
            "pressure", "of", "oil", "must", "not", "fall", "below", "limit", "check", "filter", "every", "week",
        ],
        space: " ",
        stop: ".",
    },
    Script {
        name: "German",
        words: &[
            "die",
            "Pumpe",
            "prüfen",
            "über",
            "Ölstand",
            "größer",
            "als",
            "und",
            "Ventil",
            "schließen",
            "vor",
            "dem",
            "Öffnen",
            "Gehäuse",
            "läuft",
            "nicht",
            "ohne",
            "Kühlung",
            "wöchentlich",
            "Filter",
            "säubern",
            "nach",
        ],
        space: " ",
        stop: ".",
    },
    Script {
        name: "Greek",
        words: &[
            "η",
            "αντλία",
            "ελέγξτε",
            "το",
            "λάδι",
            "και",
            "κλείστε",
            "βαλβίδα",
            "πριν",
            "από",
            "κάθε",
            "άνοιγμα",
            "πίεση",
            "δεν",
            "πρέπει",
            "να",
            "πέσει",
            "κάτω",
            "όριο",
            "φίλτρο",
        ],
        space: " ",
        stop: ".",
    },
    Script {
        name: "Japanese",
        words: &[
            "ポンプを",
            "点検する。",
            "油圧は",
            "制限値を",
            "下回っては",
            "ならない、",
            "弁を",
            "閉じて",
            "から",
            "開ける。",
            "毎週",
            "フィルターを",
            "清掃し、",
            "表の",
            "とおりに",
            "交換する。",
        ],
        space: "",
        stop: "。 ",
    },
    Script {
        name: "English and emoji",
        words: &[
            "maintain", "the", "pump", "⚠️", "close", "valve", "🔧", "before", "opening", "😀", "pressure", "of",
            "oil", "✅", "limit", "check", "filter", "🚫",
        ],
        space: " ",
        stop: ".",
    },
];

impl Script {
    pub fn word(&self, rng: &mut Rng) -> &'static str {
        rng.pick(self.words)
    }

    pub fn sentence(&self, rng: &mut Rng, words: usize) -> String {
        let words: Vec<&str> = (0..words).map(|_| self.word(rng)).collect();
        format!("{}{}", words.join(self.space), self.stop).trim_end().to_string()
    }
}
