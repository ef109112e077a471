//! The paths of the texts of many pages.

use std::collections::HashMap;
use std::ffi::{OsStr, OsString};
use std::os::unix::ffi::OsStrExt;
use std::path::{Component, Path, PathBuf};

/// Endings of names in whose place the ending of a text is written.
const ENDINGS: [&[u8]; 3] = [b".html", b".htm", b".xhtml"];

/// Returns a path without `.`, in which each `..` has taken back the name before it. Those at the start of a relative path stay.
fn normal(path: &Path) -> PathBuf {
    let mut normal = PathBuf::new();
    for component in path.components() {
        match component {
            Component::CurDir => {}
            Component::ParentDir if normal.file_name().is_some() => {
                normal.pop();
            }
            Component::ParentDir if normal.has_root() => {}
            _ => normal.push(component),
        }
    }
    normal
}

/// Returns the name of the text of a page: an ending in the place of that of HTML, or after the whole name.
fn name_of_text(page: &OsStr, ending: &str) -> OsString {
    let bytes = page.as_bytes();
    let is_end = |end: &&[u8]| bytes.len() > end.len() && bytes[bytes.len() - end.len()..].eq_ignore_ascii_case(end);
    let length = bytes.len() - ENDINGS.iter().copied().find(|end| is_end(end)).map_or(0, <[u8]>::len);
    let mut name = OsStr::from_bytes(&bytes[..length]).to_owned();
    name.push(ending);
    name
}

/// Returns the path of a page's text: in `folder`, below the folders that lead to the page, without the root and without `..` at the
/// start. The page is one that [`check`] takes.
pub fn path_of_text(folder: &Path, page: &OsStr, ending: &str) -> PathBuf {
    let page = normal(Path::new(page));
    let folders = page.parent().into_iter().flat_map(Path::components);
    let mut path = folder.to_owned();
    path.extend(folders.filter(|component| matches!(component, Component::Normal(_))));
    path.push(name_of_text(page.file_name().unwrap_or_default(), ending));
    path
}

/// Checks that pages are files with a name, and that their texts have paths of their own, none of which is that of a page.
///
/// # Errors
///
/// What is wrong with the first such page.
pub fn check(folder: &Path, pages: &[OsString], ending: &str) -> Result<(), String> {
    let mut known: HashMap<PathBuf, &OsStr> = HashMap::with_capacity(pages.len());
    for page in pages {
        let shown = Path::new(page).display();
        if page == "-" || normal(Path::new(page)).file_name().is_none() {
            return Err(format!("{shown} has no name for its text"));
        }
        let path = path_of_text(folder, page, ending);
        if let Some(other) = known.insert(normal(&path), page) {
            return Err(format!("{} and {shown} have one text, {}", Path::new(other).display(), path.display()));
        }
    }
    match pages.iter().find(|page| known.contains_key(&normal(Path::new(page)))) {
        Some(page) => Err(format!("{} is a page and a text", Path::new(page).display())),
        None => Ok(()),
    }
}

#[cfg(test)]
mod tests {
    use super::*;

    #[test]
    fn paths_of_texts() {
        for (page, text) in [
            ("a.html", "texts/a.txt"),
            ("a/b.HTM", "texts/a/b.txt"),
            ("/usr/a.xhtml", "texts/usr/a.txt"),
            ("./a//b.php", "texts/a/b.php.txt"),
            ("../../a/../b.html", "texts/b.txt"),
            ("/../a.html", "texts/a.txt"),
            (".html", "texts/.html.txt"),
            ("a.html.html", "texts/a.html.txt"),
        ] {
            assert_eq!(path_of_text(Path::new("texts"), OsStr::new(page), ".txt"), Path::new(text), "{page}");
        }
        assert_eq!(name_of_text(OsStr::from_bytes(b"\xff.htm"), ".json"), OsStr::from_bytes(b"\xff.json"));
    }

    #[test]
    fn texts_of_one_path() {
        let checked = |folder: &str, pages: &[&str]| check(Path::new(folder), &pages.iter().map(OsString::from).collect::<Vec<_>>(), ".txt");
        assert_eq!(checked("texts", &["a.html", "b/a.html", "a.php"]), Ok(()));
        assert_eq!(checked("texts", &["a.html", "./a.htm"]), Err("a.html and ./a.htm have one text, texts/a.txt".to_owned()));
        assert_eq!(checked("texts", &["/a.html", "../a.html"]), Err("/a.html and ../a.html have one text, texts/a.txt".to_owned()));
        for page in ["", "/", "..", "a/..", ".", "-"] {
            assert_eq!(checked("texts", &["a.html", page]), Err(format!("{page} has no name for its text")));
        }
        assert_eq!(checked(".", &["a.txt", "a.html"]), Err("a.txt is a page and a text".to_owned()));
    }
}
