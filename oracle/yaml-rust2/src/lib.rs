//! Stand-in for `yaml_rust2`: the value enum.

/// The pairs of a mapping, in order. Document 01 leaves a collection's `Yaml` value out, so equal keys may stay.
pub type Hash = Vec<(Yaml, Yaml)>;

#[derive(Debug, Clone)]
pub enum Yaml {
    Real(String),
    Integer(i64),
    String(String),
    Boolean(bool),
    Array(Vec<Yaml>),
    Hash(Hash),
    Null,
    BadValue,
}

impl Yaml {
    /// The text of a string; none for any other value.
    pub fn as_str(&self) -> Option<&str> {
        match self {
            Yaml::String(text) => Some(text),
            _ => None,
        }
    }
}
