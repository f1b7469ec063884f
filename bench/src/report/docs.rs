//! Rewrites the figures of the documentation, from the repository's root.

use std::fs;
use std::io;

use super::tables;
use crate::chart;
use crate::meter::Meter;
use crate::results::Results;

const PAGE: &str = "docs/PERFORMANCE.md";
const PICTURE: &str = "docs/performance.svg";

/// Puts the tables into docs/PERFORMANCE.md, between their markers, and draws docs/performance.svg.
pub fn rewrite(meter: &Meter, results: &Results) -> io::Result<()> {
    let mut page = fs::read_to_string(PAGE)?;
    let parts = [
        ("method", tables::method(meter, results)),
        ("accepted", tables::accepted(results)),
        ("refused", tables::refused(results)),
        ("spread", tables::spread(results)),
        ("pages", tables::pages(results)),
        ("growth", tables::growth(results)),
        ("loops", tables::loops(results)),
    ];
    for (name, part) in parts {
        let missing = || io::Error::other(format!("{PAGE} has no markers bench:{name}"));
        page = between(&page, name, &part).ok_or_else(missing)?;
    }
    fs::write(PAGE, page)?;
    fs::write(PICTURE, chart::picture(results))
}

/// The page with other lines between the markers of this name, if it has both.
fn between(page: &str, name: &str, part: &str) -> Option<String> {
    let (before, rest) = page.split_once(&format!("<!-- bench:{name} -->\n"))?;
    let (_, after) = rest.split_once(&format!("<!-- /bench:{name} -->\n"))?;
    Some(format!(
        "{before}<!-- bench:{name} -->\n{part}<!-- /bench:{name} -->\n{after}"
    ))
}

#[cfg(test)]
mod tests {
    use super::between;

    #[test]
    fn only_what_is_between_the_markers_changes() {
        let page = "a\n<!-- bench:x -->\nold\n<!-- /bench:x -->\nb\n";
        let rewritten = "a\n<!-- bench:x -->\nnew\n<!-- /bench:x -->\nb\n";
        assert_eq!(between(page, "x", "new\n").as_deref(), Some(rewritten));
        assert_eq!(between(page, "y", "new\n"), None);
    }
}
