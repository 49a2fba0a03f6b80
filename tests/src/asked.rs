//! What a function asks of its caller, read off its source: by a clause, or by the type of a parameter.

/// The types with an invariant: a struct with a fact among its fields, and one whose model has one.
pub fn types_with_invariant<'a>(sources: impl Iterator<Item = &'a str>) -> Vec<String> {
    let mut found = Vec::new();
    for source in sources {
        let mut of = String::new();
        for text in source.lines().map(str::trim) {
            for head in ["pub struct ", "pub(crate) struct ", "struct ", "impl Model for "] {
                if let Some(rest) = text.strip_prefix(head) {
                    of = rest.chars().take_while(|c| c.is_alphanumeric() || *c == '_').collect();
                }
            }
            let fact = ["pub ghost ", "ghost "].iter().find_map(|head| text.strip_prefix(head));
            if fact.is_some_and(|rest| !rest.starts_with("use ")) && !of.is_empty() && !found.contains(&of) {
                found.push(of.clone());
            }
            if text == "}" || text.contains("fn ") {
                of.clear();
            }
        }
    }
    found
}

/// Whether a function asks something, by all that stands from its name to its body.
pub fn asks(declared: &str, types: &[String]) -> bool {
    let before = declared.split("ensures").next().unwrap_or("");
    let parameters = before.rsplit_once("->").map_or(before, |(parameters, _)| parameters);
    let words: Vec<&str> = parameters.split(|c: char| !(c.is_alphanumeric() || c == '_')).collect();
    declared.contains("requires") || types.iter().any(|of| words.contains(&of.as_str()))
}
