//! The page and the picture in docs: the benchmark rewrites what stands between two markers, and the picture whole.

use std::fs;
use std::io;
use std::path::PathBuf;

const BEGIN: &str = "<!-- measured: begin -->\n";
const END: &str = "<!-- measured: end -->\n";

fn file(name: &str) -> PathBuf {
    PathBuf::from(env!("CARGO_MANIFEST_DIR"))
        .join("../docs")
        .join(name)
}

/// Puts the tables on the page, and the picture beside it.
pub fn write(tables: &str, picture: &str) -> io::Result<()> {
    let page = fs::read_to_string(file("MEASUREMENTS.md"))?;
    let page =
        between(&page, tables).ok_or_else(|| io::Error::other("the page has lost its markers"))?;
    fs::write(file("MEASUREMENTS.md"), page)?;
    fs::write(file("measurements.svg"), picture)
}

/// The page with other text between its markers.
fn between(page: &str, text: &str) -> Option<String> {
    let (before, rest) = page.split_once(BEGIN)?;
    let (_, after) = rest.split_once(END)?;
    Some(format!("{before}{BEGIN}\n{text}\n{END}{after}"))
}

#[cfg(test)]
mod tests {
    use super::*;

    #[test]
    fn only_what_stands_between_the_markers_changes() {
        let page = format!("a\n{BEGIN}old\n{END}b\n");
        let new = between(&page, "new").unwrap();
        assert_eq!(new, format!("a\n{BEGIN}\nnew\n{END}b\n"));
        assert_eq!(between(&new, "new"), Some(new.clone()));
        assert_eq!(between("no markers", "new"), None);
    }
}
