//! Applies a unified diff of one file, strictly: at the lines that it names, and only where every
//! line that it shows is there to the letter.

/// The text after the patch, or what was not as the patch expects.
pub fn apply(patch: &str, text: &str) -> Result<String, String> {
    let old: Vec<&str> = text.split_inclusive('\n').collect();
    let mut next = 0;
    let mut hunks = 0;
    let mut new = String::new();
    for line in patch.split_inclusive('\n').skip_while(|l| !l.starts_with("@@")) {
        if line.starts_with("@@") {
            let start = hunk_start(line)?;
            if start < next || start > old.len() {
                return Err(format!("no line {} to start at", start + 1));
            }
            new.extend(old[next..start].iter().copied());
            next = start;
            hunks += 1;
        } else if let Some(added) = line.strip_prefix('+') {
            new.push_str(added);
        } else {
            let shown = line.strip_prefix(['-', ' ']).ok_or("a line of no kind")?;
            if old.get(next) != Some(&shown) {
                return Err(format!("line {} is not {shown:?}", next + 1));
            }
            if line.starts_with(' ') {
                new.push_str(shown);
            }
            next += 1;
        }
    }
    if hunks == 0 {
        return Err("it changes nothing".to_string());
    }
    new.extend(old[next..].iter().copied());
    Ok(new)
}

/// The first old line of a hunk, counted from 0: `@@ -252,26 +252,2 @@` gives 251.
fn hunk_start(line: &str) -> Result<usize, String> {
    line.strip_prefix("@@ -")
        .and_then(|rest| rest.split([',', ' ']).next())
        .and_then(|number| number.parse::<usize>().ok())
        .and_then(|number| number.checked_sub(1))
        .ok_or_else(|| format!("not the head of a hunk: {line:?}"))
}

#[cfg(test)]
mod tests {
    use super::apply;

    const PATCH: &str = "--- a\n+++ b\n@@ -2,3 +2,3 @@\n b\n-c\n+C\n d\n";

    #[test]
    fn changes_what_it_shows() {
        assert_eq!(apply(PATCH, "a\nb\nc\nd\ne\n").unwrap(), "a\nb\nC\nd\ne\n");
    }

    #[test]
    fn refuses_another_text() {
        assert!(apply(PATCH, "a\nb\nx\nd\ne\n").is_err());
        assert!(apply(PATCH, "b\nc\nd\ne\n").is_err());
        assert!(apply(PATCH, "a\nb\nc\n").is_err());
        assert!(apply(PATCH, "").is_err());
    }

    #[test]
    fn refuses_an_empty_patch() {
        assert!(apply("", "a\n").is_err());
        assert!(apply("--- a\n+++ b\n", "a\n").is_err());
    }
}
