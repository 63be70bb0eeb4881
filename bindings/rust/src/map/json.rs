//! A map as JSON.
use super::*;
use crate::kind::Seeded;
use crate::side::Text;

impl<L: Text, K: Kind> BijectiveMap<L, u64, K> {
    /// Returns the pairs as a JSON object with a name and its number for each pair. Returns `None` if a left is not
    /// UTF-8.
    ///
    /// ```
    /// let seats = jetukoma::BiMap::from_iter([("bob".to_string(), 7_u64), ("ann".to_string(), 12)]);
    /// assert_eq!(seats.to_json().as_deref(), Some(r#"{"ann":12,"bob":7}"#));
    /// ```
    pub fn to_json(&self) -> Option<String> {
        match self.handle.to_json() {
            Ok(text) => Some(String::from_utf8(text).expect("JSON is UTF-8")),
            Err(Refusal::Held) => None,
            Err(Refusal::Memory) => ended(Refusal::Memory),
        }
    }
}

impl<L: Text, K: Seeded> BijectiveMap<L, u64, K> {
    /// Makes the map of such a JSON object. Returns `None` if the text is another one, or has a name or a number twice.
    ///
    /// ```
    /// let seats = jetukoma::BiMap::<String, u64>::from_json(r#"{"ann": 12}"#).unwrap();
    /// assert_eq!(seats.get_by_right(&12).as_deref(), Some("ann"));
    /// assert!(jetukoma::BiMap::<String, u64>::from_json(r#"{"ann": 12, "bob": 12}"#).is_none());
    /// ```
    pub fn from_json(text: &str) -> Option<Self> {
        let map = Self::default();
        match map.handle.read_json(text.as_bytes()) {
            Ok(()) => Some(map),
            Err(Refusal::Held) => None,
            Err(Refusal::Memory) => ended(Refusal::Memory),
        }
    }
}
