//! What is a name, and which names a file defines.

/// Letters, digits and signs that can be part of a name.
fn in_name(c: char) -> bool {
    c.is_alphanumeric() || "-_·'′?".contains(c)
}

/// A name, or names joined by `::`.
pub fn is_name(quoted: &str) -> bool {
    let mut parts = quoted.split("::");
    parts.all(|part| part.starts_with(char::is_alphabetic) && part.chars().all(in_name))
}

pub fn words(text: &str) -> impl Iterator<Item = &str> {
    text.split(|c| !in_name(c)).filter(|word| !word.is_empty())
}

pub fn has_word(text: &str, name: &str) -> bool {
    words(text).any(|word| word == name)
}

/// Whether a file defines, declares or promises a name.
pub fn defines(path: &str, text: &str, name: &str) -> bool {
    let file = path.rsplit('/').next().unwrap_or(path);
    match file.rsplit_once('.') {
        Some((_, "antt")) => text.lines().any(|line| declares(line, name)),
        Some((_, "rt")) => code_defines(text, name) || promises(text, name),
        Some((_, "rs")) => code_defines(text, name),
        // An edit that must fail is known by the name of its file.
        Some((stem, "edit")) => stem == name,
        _ => has_word(text, name),
    }
}

/// A signature, a constructor or a field; or the head of a record, of data or of
/// a module, which may have parameters.
fn declares(line: &str, name: &str) -> bool {
    let mut rest = line.trim_start();
    let mut is_head = false;
    while let Some((word, after)) = rest.split_once(' ') {
        match word {
            "pub" | "unfoldable" | "abbrev" => {}
            "record" | "data" | "module" => is_head = true,
            _ => break,
        }
        rest = after;
    }
    let Some(after) = rest.strip_prefix(name) else {
        return false;
    };
    let goes_on = |signs: &[&str]| signs.iter().any(|&sign| after.starts_with(sign));
    goes_on(&[" :"]) || is_head && (after.is_empty() || goes_on(&[" (", " {", " where"]))
}

const DEFINING: [&str; 8] = [
    "fn", "struct", "enum", "const", "static", "trait", "type", "mod",
];

/// A function, a type, a constant, a module, or a variant of an enum.
fn code_defines(text: &str, name: &str) -> bool {
    let mut in_enum = false;
    for line in text.lines().map(str::trim) {
        if line.starts_with("//") {
            continue;
        }
        let words: Vec<&str> = words(line).collect();
        let defined = |pair: &[&str]| DEFINING.contains(&pair[0]) && pair[1] == name;
        if words.windows(2).any(defined) || in_enum && words.first() == Some(&name) {
            return true;
        }
        in_enum = line != "}" && (in_enum || words.contains(&"enum"));
    }
    false
}

/// A name in the promise of a function.
fn promises(text: &str, name: &str) -> bool {
    let mut promises = text.split("ensures {").skip(1);
    promises.any(|rest| {
        let mut depth = 1;
        let end = rest.find(|c| {
            depth += i32::from(c == '{') - i32::from(c == '}');
            depth == 0
        });
        has_word(&rest[..end.unwrap_or(rest.len())], name)
    })
}
