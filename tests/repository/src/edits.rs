//! The edits that must fail: texts that are replaced in copies of a crate's files.

use std::collections::BTreeMap;

use crate::files::File;

/// A `file:` line holds for the pairs of `old:` and `new:` after it.
pub struct Replacement {
    pub file: String,
    pub old: String,
    pub new: String,
}

/// The replacements of an edit in order, or what is wrong with its form.
pub fn replacements(text: &str) -> Result<Vec<Replacement>, String> {
    let (mut file, mut pending, mut found) = ("", None, Vec::new());
    for line in text.lines() {
        if let Some(path) = line.strip_prefix("file: ") {
            file = path;
        } else if let Some(old) = line.strip_prefix("old: ") {
            if pending.replace(old).is_some() {
                return Err("an 'old:' has no 'new:'".to_string());
            }
        } else if let Some(new) = line.strip_prefix("new:") {
            let old = pending.take().ok_or("a 'new:' has no 'old:'")?;
            let new = new.strip_prefix(' ').unwrap_or(new);
            let [file, old, new] = [file, old, new].map(str::to_string);
            found.push(Replacement { file, old, new });
        }
    }
    if pending.is_some() || found.is_empty() {
        return Err("it has no pair of 'old:' and 'new:', or half of one".to_string());
    }
    Ok(found)
}

/// Whether an edit may change a file: a proof is nobody's promise.
fn is_allowed(file: &str) -> bool {
    file.starts_with("src/") || file.starts_with("specs/")
}

/// Makes one replacement after the ones before it, or says why not.
fn replace(texts: &mut BTreeMap<String, String>, one: &Replacement) -> Result<(), String> {
    let Replacement { file, old, new } = one;
    if !is_allowed(file) {
        return Err(format!("'{file}' is not under src/ or specs/"));
    }
    let text = texts.get_mut(file).ok_or(format!("there is no {file}"))?;
    match text.matches(&old[..]).count() {
        1 => *text = text.replacen(&old[..], new, 1),
        count => return Err(format!("'{old}' occurs {count} times in {file}")),
    }
    if old == new {
        return Err(format!("'{old}' stays as it is"));
    }
    Ok(())
}

/// What is wrong with an edit of a crate that has these files.
pub fn fault(edit: &File, files: &[File]) -> Option<String> {
    let folder = format!("crates/{}/", edit.crate_name());
    let texts = files
        .iter()
        .filter_map(|file| Some((file.path.strip_prefix(&folder)?, &file.text)));
    let mut texts = texts
        .map(|(path, text)| (path.to_string(), text.clone()))
        .collect();
    let made = replacements(&edit.text)
        .and_then(|all| all.iter().try_for_each(|one| replace(&mut texts, one)));
    made.err().map(|reason| format!("{}: {reason}", edit.path))
}
