//! The page: what stands between the two marks is written anew, all else stays.

use std::path::{Path, PathBuf};
use std::{fs, io};

const BEGIN: &str = "<!-- generated: begin -->";
const END: &str = "<!-- generated: end -->";

pub const PAGE: &str = "BENCHMARKS.md";
pub const PLOT: &str = "benchmarks.svg";

/// A file of the folder docs.
pub fn place(file: &str) -> PathBuf {
    Path::new(env!("CARGO_MANIFEST_DIR"))
        .join("../../docs")
        .join(file)
}

/// The page with another part between its marks.
fn renewed(page: &str, part: &str) -> Option<String> {
    let (before, rest) = page.split_once(BEGIN)?;
    let (_, after) = rest.split_once(END)?;
    Some(format!("{before}{BEGIN}\n\n{part}\n{END}{after}"))
}

/// Writes part and plot.
///
/// # Errors
/// A file that cannot be read or written, or a page without its marks.
pub fn write(part: &str, plot: &str) -> Result<(), String> {
    let told = |file: &Path, error: io::Error| format!("{}: {error}", file.display());
    let page = place(PAGE);
    let text = fs::read_to_string(&page).map_err(|error| told(&page, error))?;
    let text =
        renewed(&text, part).ok_or_else(|| format!("{PAGE} lacks the lines {BEGIN} and {END}"))?;
    fs::write(&page, text).map_err(|error| told(&page, error))?;
    let picture = place(PLOT);
    fs::write(&picture, plot).map_err(|error| told(&picture, error))
}

#[cfg(test)]
mod tests {
    use super::*;

    #[test]
    fn only_what_stands_between_the_marks_changes() {
        let page = format!("a\n{BEGIN}\nold\n{END}\nb\n");
        let new = renewed(&page, "new\n").expect("both marks");
        assert_eq!(new, format!("a\n{BEGIN}\n\nnew\n\n{END}\nb\n"));
        assert_eq!(renewed(&new, "new\n"), Some(new.clone()));
    }

    #[test]
    fn a_page_without_marks_is_left() {
        assert_eq!(renewed("a", "new"), None);
        assert_eq!(renewed(BEGIN, "new"), None);
    }
}
