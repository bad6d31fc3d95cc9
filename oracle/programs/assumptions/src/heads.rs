//! The heads of functions, and the attributes that they name.

use std::collections::BTreeSet;

/// What may stand beside a type in the head of a function: these tell how a value goes over, nothing more. Two values
/// that come back together stand in braces.
const HARMLESS: [&str; 5] = ["zeroext", "signext", "internal", "{", "}"];

/// The head of a function without `noundef`. Its group of attributes is kept in `defined`.
pub fn define(line: &str, defined: &mut BTreeSet<String>) -> Result<String, String> {
    let head = line.replace("noundef ", "");
    let (before, arguments) = head.split_once('@').ok_or("no name")?;
    let behind = if arguments.starts_with('"') { "\"(" } else { "(" };
    let (_, arguments) = arguments.split_once(behind).ok_or("no arguments")?;
    let (arguments, group) = arguments.rsplit_once(") ").ok_or("no attributes")?;
    let group = group.strip_suffix(" {").ok_or("no body")?;
    if !group.starts_with('#') || group.contains(' ') {
        return Err(format!("attributes {group}"));
    }
    let words = before.split([' ', ',']).skip(1).chain(arguments.split([' ', ',']));
    for word in words.filter(|word| !word.is_empty()) {
        if !(is_type(word) || word.starts_with('%') || HARMLESS.contains(&word)) {
            return Err(format!("the word {word}"));
        }
    }
    defined.insert(group.to_string());
    Ok(head)
}

fn is_type(word: &str) -> bool {
    let digits = word.strip_prefix('i');
    digits.is_some_and(|digits| digits.parse::<u32>().is_ok())
        || ["ptr", "double", "void"].contains(&word)
}

/// A line that stands in no function. No function may be declared but LLVM's own. In the attributes of functions
/// that are defined here nothing may be promised but that they do not unwind; the address sanitizer is let in.
pub fn attributes(line: &str, defined: &BTreeSet<String>) -> Result<String, String> {
    if line.starts_with("declare ") && !line.contains(" @llvm.") {
        return Err("a function from elsewhere".to_string());
    }
    let Some((group, list)) =
        line.strip_prefix("attributes ").and_then(|line| line.split_once(" = "))
    else {
        return Ok(line.to_string());
    };
    if !defined.contains(group) {
        return Ok(line.to_string());
    }
    let words = list.trim_matches(['{', '}', ' ']).split(' ');
    for word in words {
        if word != "nounwind" && !word.starts_with('"') {
            return Err(format!("the attribute {word}"));
        }
    }
    Ok(line.replacen('{', "{ sanitize_address", 1))
}
