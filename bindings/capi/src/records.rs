//! Lines as records, in the form that `html_render_lines_of` of `html_render.h` describes.

use html_render::{Colour, RichAnnotation, TaggedLine, TaggedLineElement};

/// Letter of an annotation that says nothing.
const DEFAULT: u8 = b'd';

/// Returns the records of lines of plain text.
pub fn plain(lines: &[TaggedLine<Vec<()>>]) -> Vec<u8> {
    of_lines(lines, |records, ()| records.push(DEFAULT))
}

/// Returns the records of lines of rich text.
pub fn rich(lines: &[TaggedLine<Vec<RichAnnotation>>]) -> Vec<u8> {
    of_lines(lines, push_annotation)
}

/// Returns the records of lines whose annotations a function appends.
fn of_lines<A>(lines: &[TaggedLine<Vec<A>>], push_annotation: impl Fn(&mut Vec<u8>, &A)) -> Vec<u8> {
    let mut records = Vec::new();
    for line in lines {
        records.push(b'L');
        for element in line.iter() {
            match element {
                TaggedLineElement::Str(string) => {
                    records.push(b'S');
                    push_number(&mut records, string.tag.len());
                    string.tag.iter().for_each(|annotation| push_annotation(&mut records, annotation));
                    push_text(&mut records, &string.s);
                }
                TaggedLineElement::FragmentStart(name) => {
                    records.push(b'F');
                    push_text(&mut records, name);
                }
            }
        }
    }
    records
}

/// Appends a number in 4 bytes, the lowest first. It stops at 2^32 - 1.
fn push_number(records: &mut Vec<u8>, number: usize) {
    records.extend_from_slice(&u32::try_from(number).unwrap_or(u32::MAX).to_le_bytes());
}

fn push_text(records: &mut Vec<u8>, text: &str) {
    push_number(records, text.len());
    records.extend_from_slice(text.as_bytes());
}

fn push_annotation(records: &mut Vec<u8>, annotation: &RichAnnotation) {
    match annotation {
        RichAnnotation::Link(target) => push_named(records, b'l', target),
        RichAnnotation::Image(source) => push_named(records, b'i', source),
        RichAnnotation::Emphasis => records.push(b'e'),
        RichAnnotation::Strong => records.push(b'b'),
        RichAnnotation::Strikeout => records.push(b's'),
        RichAnnotation::Code => records.push(b'c'),
        RichAnnotation::Preformat(false) => records.push(b'p'),
        RichAnnotation::Preformat(true) => records.push(b'q'),
        RichAnnotation::Colour(colour) => push_colour(records, b'f', *colour),
        RichAnnotation::BgColour(colour) => push_colour(records, b'g', *colour),
        _ => records.push(DEFAULT),
    }
}

fn push_named(records: &mut Vec<u8>, letter: u8, name: &str) {
    records.push(letter);
    push_text(records, name);
}

fn push_colour(records: &mut Vec<u8>, letter: u8, colour: Colour) {
    records.extend_from_slice(&[letter, colour.r, colour.g, colour.b]);
}

#[cfg(test)]
mod tests {
    use super::*;
    use html_render::config;

    #[test]
    fn each_annotation() {
        let page = "<p><b style='color: #010203; background-color: #040506'>a</b><em>b</em><s>c</s><code>d</code><a href=e>f</a><img src=g alt=h>\
                    <pre id=i>j</pre>";
        let lines = config::rich().as_shown(html_render::Options::new()).lines_from_read(page.as_bytes(), 80).unwrap();
        let records = rich(&lines);
        for part in [
            &b"f\x01\x02\x03"[..],
            b"g\x04\x05\x06",
            b"S\x01\0\0\0e\x01\0\0\0b",
            b"s\x03\0\0\0c\xcc\xb6",
            b"S\x01\0\0\0c\x01\0\0\0d",
            b"S\x01\0\0\0l\x01\0\0\0e\x01\0\0\0f",
            b"S\x01\0\0\0i\x01\0\0\0g\x01\0\0\0h",
            b"F\x01\0\0\0i",
            b"p\x05\0\0\0    j",
        ] {
            assert!(records.windows(part.len()).any(|it| it == part), "{part:?} in {records:?}");
        }
        assert_eq!(records.iter().filter(|byte| **byte == b'L').count(), lines.len());
    }

    #[test]
    fn plain_text_has_default_annotations() {
        let lines = config::plain().lines_from_read("<p><em>a</em>".as_bytes(), 80).unwrap();
        assert_eq!(plain(&lines), b"LS\0\0\0\0\x01\0\0\0*S\x01\0\0\0d\x01\0\0\0aS\0\0\0\0\x01\0\0\0*");
    }
}
