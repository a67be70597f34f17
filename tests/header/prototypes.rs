//! The functions that a C header declares, with the names of their parameters in order.

pub struct Prototype {
    pub name: String,
    pub parameters: Vec<String>,
}

pub fn prototypes(header: &str) -> Result<Vec<Prototype>, String> {
    let mut found = Vec::new();
    for declaration in without_comments(header).split(';') {
        let Some((front, rest)) = declaration.split_once('(') else {
            continue;
        };
        let Some(name) = last_word(front).filter(|name| name.starts_with("hs_")) else {
            continue;
        };
        let (list, _) = rest.split_once(')').ok_or(format!("{name} has no end"))?;
        let parameters =
            parameters(list).ok_or(format!("{name} has a parameter without a name"))?;
        found.push(Prototype { name, parameters });
    }
    Ok(found)
}

/// None where a parameter is only a type.
fn parameters(list: &str) -> Option<Vec<String>> {
    if list.trim() == "void" {
        return Some(Vec::new());
    }
    let name = |parameter: &str| match parameter.split_whitespace().count() {
        0 | 1 => None,
        _ => last_word(parameter),
    };
    list.split(',').map(name).collect()
}

fn last_word(text: &str) -> Option<String> {
    let word = text.trim_end().rsplit(|c: char| !c.is_alphanumeric() && c != '_').next()?;
    (!word.is_empty()).then(|| word.to_string())
}

fn without_comments(text: &str) -> String {
    let mut parts = text.split("/*");
    let first = parts.next().unwrap_or("").to_string();
    parts.filter_map(|part| part.split_once("*/")).fold(first, |text, (_, behind)| text + behind)
}
