//! Rich text on a terminal.

use html_render::RichAnnotation;

/// Reports whether standard output is a terminal.
pub fn is_output() -> bool {
    rustix::termios::isatty(std::io::stdout())
}

/// Reports whether standard error is a terminal.
pub fn is_error_output() -> bool {
    rustix::termios::isatty(std::io::stderr())
}

/// Reports whether `NO_COLOR` is unset or empty.
pub fn takes_colours() -> bool {
    std::env::var_os("NO_COLOR").map_or(true, |value| value.is_empty())
}

/// Returns the columns of the terminal, or 80.
pub fn columns() -> usize {
    match terminal_size::terminal_size() {
        Some((terminal_size::Width(columns), _)) if columns > 0 => columns.into(),
        _ => 80,
    }
}

/// Reports whether a target is one that a terminal may open: other schemes can start programs.
fn can_be_opened(target: &str) -> bool {
    let scheme = target.split_once(':').map_or("", |(scheme, _)| scheme);
    ["http", "https", "mailto"].iter().any(|known| scheme.eq_ignore_ascii_case(known)) && !target.chars().any(char::is_control)
}

/// Returns what a terminal is told where a string under this annotation begins.
fn sign(annotation: &RichAnnotation) -> String {
    match annotation {
        RichAnnotation::Link(target) if can_be_opened(target) => format!("\x1b]8;;{target}\x1b\\\x1b[4m"),
        RichAnnotation::Link(_) => "\x1b[4m".to_owned(),
        RichAnnotation::Emphasis => "\x1b[3m".to_owned(),
        RichAnnotation::Strong => "\x1b[1m".to_owned(),
        RichAnnotation::Strikeout => "\x1b[9m".to_owned(),
        RichAnnotation::Code => "\x1b[2m".to_owned(),
        RichAnnotation::Colour(c) => format!("\x1b[38;2;{};{};{}m", c.r, c.g, c.b),
        RichAnnotation::BgColour(c) => format!("\x1b[48;2;{};{};{}m", c.r, c.g, c.b),
        _ => String::new(),
    }
}

/// Returns a string under its annotations, as a terminal shows it. Control characters of the page are left out.
pub fn shown(annotations: &[RichAnnotation], text: &str) -> String {
    let text: String = text.chars().filter(|c| !c.is_control()).collect();
    let signs: String = annotations.iter().map(sign).collect();
    if signs.is_empty() {
        return text;
    }
    let link_end = if signs.contains("\x1b]8;;") { "\x1b]8;;\x1b\\" } else { "" };
    format!("{signs}{text}\x1b[0m{link_end}")
}

#[cfg(test)]
mod tests {
    use super::*;

    #[test]
    fn links_of_few_schemes() {
        let link = |target: &str| shown(&[RichAnnotation::Link(target.to_owned())], "x");
        assert_eq!(link("https://a.example"), "\x1b]8;;https://a.example\x1b\\\x1b[4mx\x1b[0m\x1b]8;;\x1b\\");
        assert_eq!(link("MAILTO:a@b.example").matches("\x1b]8;;").count(), 2);
        for target in ["file:///etc/passwd", "ssh://a", "javascript:x", "a.html", "https://a\x1b]"] {
            assert_eq!(link(target), "\x1b[4mx\x1b[0m", "{target:?}");
        }
    }
}
