//! Edits of a source text, in the form of `crates/rules/must-fail`: comments with `#`, then `file`, `old` and `new`, once or more.

/// What stands in a file once, as a part of a line, and what is put there.
pub struct Edit {
    pub file: String,
    old: String,
    new: String,
}

/// The edits in a text.
pub fn parse(text: &str) -> Result<Vec<Edit>, String> {
    let lines = text.lines().filter(|line| !line.starts_with('#'));
    let lines: Vec<&str> = lines.collect();
    let (groups, []) = lines.as_chunks() else {
        return Err("not file, old and new, and again these three".to_owned());
    };
    let edit = |&[file, old, new]: &[&str; 3]| {
        Ok(Edit {
            file: field(file, "file:")?,
            old: field(old, "old:")?,
            new: field(new, "new:")?,
        })
    };
    groups.iter().map(edit).collect()
}

fn field(line: &str, label: &str) -> Result<String, String> {
    let value = line
        .strip_prefix(label)
        .ok_or_else(|| format!("{line:?} is not {label}"))?;
    Ok(value.strip_prefix(' ').unwrap_or(value).to_owned())
}

impl Edit {
    /// The text of the file with the edit made.
    pub fn apply(&self, text: &str) -> Result<String, String> {
        match text.matches(&self.old).count() {
            1 => Ok(text.replacen(&self.old, &self.new, 1)),
            times => Err(format!("{} has {:?} {times} times", self.file, self.old)),
        }
    }
}

#[test]
fn what_does_not_stand_there_once_is_not_edited() {
    let edits = parse("# a comment\nfile: a\nold: b c\nnew: d\nfile: a\nold: d\nnew:\n").unwrap();
    let [first, second] = &edits[..] else {
        panic!("two edits")
    };
    assert_eq!(first.apply("a b c e").as_deref(), Ok("a d e"));
    assert_eq!(second.apply("a d e").as_deref(), Ok("a  e"));
    assert!(first.apply("a b e").is_err());
    assert!(first.apply("b c, b c").is_err());
    assert!(parse("file: a\nold: b\n").is_err());
    assert!(parse("file: a\nnew: b\nold: c\n").is_err());
}
