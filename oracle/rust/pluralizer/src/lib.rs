//! Shim: the one function that zixy's error messages use of the crate `pluralizer`.

pub fn pluralize(word: &str, count: isize, _include: bool) -> String {
    format!("{count} {word}{}", if count == 1 { "" } else { "s" })
}
