//! What an attribute `style` declares, of the properties that change what is shown.

use crate::css::{self, Read, Value};
use crate::lines::Colour;
use cssparser::{
    parse_important, AtRuleParser, CowRcStr, DeclarationListParser, DeclarationParser, Parser, ParserInput, Token,
};
use std::collections::HashMap;
use std::rc::Rc;
use tendril::StrTendril;

/// A value, and whether it is important.
#[derive(Clone, Copy, Debug, PartialEq, Eq)]
pub(crate) struct Declared<T> {
    pub value: T,
    pub is_important: bool,
}

/// The declarations of an attribute `style` that win over the others in it.
#[derive(Clone, Copy, Debug, Default)]
pub(crate) struct InlineStyle {
    is_displayed: Option<Declared<bool>>,
    is_hidden_in_word: Option<Declared<bool>>,
    has_no_height: Option<Declared<bool>>,
    is_clipped: Option<Declared<bool>>,
    is_visible: Option<Declared<bool>>,
    has_size: Option<Declared<bool>>,
    pub colour: Option<Declared<Colour>>,
    pub background: Option<Declared<Colour>>,
    pub white_space: Option<Declared<u32>>,
}

/// Maximum number of texts whose declarations are remembered.
const MAX_REMEMBERED: usize = 1_000;

/// Reads values of the attribute `style`. A value that is repeated is read once.
#[derive(Default)]
pub(crate) struct Styles {
    read: HashMap<StrTendril, Rc<InlineStyle>>,
}

impl Styles {
    /// Returns what a value declares.
    pub fn of(&mut self, text: &StrTendril) -> Rc<InlineStyle> {
        if let Some(style) = self.read.get(text) {
            return Rc::clone(style);
        }
        let style = Rc::new(InlineStyle::of(text));
        if self.read.len() < MAX_REMEMBERED {
            self.read.insert(text.clone(), Rc::clone(&style));
        }
        style
    }
}

/// A declaration, before it is known whether it wins.
enum Property {
    Display(bool),
    HiddenInWord(bool),
    NoHeight(bool),
    Clipped(bool),
    Visible(bool),
    Size(bool),
    Sheet(Value),
}

impl InlineStyle {
    /// Reads the value of an attribute `style`. What isn't understood is passed over.
    pub fn of(text: &str) -> InlineStyle {
        let mut style = InlineStyle::default();
        let mut input = ParserInput::new(text);
        let mut parser = Parser::new(&mut input);
        for declaration in DeclarationListParser::new(&mut parser, Properties).flatten() {
            style.declare(declaration);
        }
        style
    }

    /// Reports whether the value of an attribute `style` has a word that is in every declaration which drops an element, or may be one that is
    /// written with escapes.
    pub fn can_drop(text: &str) -> bool {
        let text = text.as_bytes();
        let has = |word: &[u8]| text.windows(word.len()).any(|found| found.eq_ignore_ascii_case(word));
        text.contains(&b'\\') || has(b"none") || has(b"hid") || has(b"clip")
    }

    fn declare(&mut self, declaration: Declared<Property>) {
        let is_important = declaration.is_important;
        match declaration.value {
            Property::Display(value) => declare(&mut self.is_displayed, value, is_important),
            Property::HiddenInWord(value) => declare(&mut self.is_hidden_in_word, value, is_important),
            Property::NoHeight(value) => declare(&mut self.has_no_height, value, is_important),
            Property::Clipped(value) => declare(&mut self.is_clipped, value, is_important),
            Property::Visible(value) => declare(&mut self.is_visible, value, is_important),
            Property::Size(value) => declare(&mut self.has_size, value, is_important),
            Property::Sheet(Value::Colour(value)) => declare(&mut self.colour, value, is_important),
            Property::Sheet(Value::Background(value)) => declare(&mut self.background, value, is_important),
            Property::Sheet(Value::WhiteSpace(value)) => declare(&mut self.white_space, value, is_important),
            Property::Sheet(Value::DisplayNone | Value::Content(_)) => {}
        }
    }

    /// Reports whether nothing of the element is shown, nor of what is in it. `is_hidden` says whether that is so without the style.
    pub fn drops(&self, is_hidden: bool) -> bool {
        let is = |declared: Option<Declared<bool>>| declared.map_or(false, |declared| declared.value);
        let is_displayed = self.is_displayed.map_or(!is_hidden, |declared| declared.value);
        !is_displayed || is(self.is_hidden_in_word) || is(self.has_no_height) && is(self.is_clipped)
    }

    /// Reports whether the element is displayed, whatever rules say that aren't important.
    pub fn is_displayed(&self) -> bool {
        self.is_displayed.map_or(false, |declared| declared.value)
    }

    /// Reports whether something is declared that rules of a sheet can declare too, of colours only if they are annotated.
    pub fn has_rules(&self, has_colours: bool) -> bool {
        self.white_space.is_some() || has_colours && (self.colour.is_some() || self.background.is_some())
    }

    /// Reports whether the texts in the element are visible; `None` where nothing is declared.
    pub fn is_visible(&self) -> Option<bool> {
        self.is_visible.map(|declared| declared.value)
    }

    /// Reports whether the texts in the element have a size above 0; `None` where nothing is declared.
    pub fn has_size(&self) -> Option<bool> {
        self.has_size.map(|declared| declared.value)
    }
}

fn declare<T>(slot: &mut Option<Declared<T>>, value: T, is_important: bool) {
    if is_important || !matches!(slot, Some(Declared { is_important: true, .. })) {
        *slot = Some(Declared { value, is_important });
    }
}

/// Reads the declarations of an attribute `style`.
struct Properties;

impl<'i> DeclarationParser<'i> for Properties {
    type Declaration = Declared<Property>;
    type Error = ();

    fn parse_value<'t>(&mut self, name: CowRcStr<'i>, input: &mut Parser<'i, 't>) -> Read<'i, Declared<Property>> {
        let value = match name.to_ascii_lowercase().as_str() {
            "display" => Property::Display(is_displayed(input)?),
            "mso-hide" => Property::HiddenInWord(css::word(input, &["none", "all", "screen"])? == 1),
            "max-height" => Property::NoHeight(is_zero_length(input)?),
            "overflow" | "overflow-y" => Property::Clipped(is_clipped(input)?),
            "visibility" => Property::Visible(css::word(input, &["visible", "hidden", "collapse"])? == 0),
            "font-size" => Property::Size(has_size(input)?),
            "font" => Property::Size(font_has_size(input)?),
            _ => Property::Sheet(css::value(&name, input)?),
        };
        let is_important = input.try_parse(parse_important).is_ok();
        Ok(Declared { value, is_important })
    }
}

impl<'i> AtRuleParser<'i> for Properties {
    type Prelude = ();
    type AtRule = Declared<Property>;
    type Error = ();
}

/// Reads a value of `display`: one word or several.
fn is_displayed<'i>(input: &mut Parser<'i, '_>) -> Read<'i, bool> {
    let first = input.expect_ident()?.clone();
    while input.try_parse(|input| input.expect_ident().map(|_| ())).is_ok() {}
    match first.to_ascii_lowercase().as_str() {
        "none" => Ok(false),
        "inherit" | "unset" | "revert" => Err(input.new_custom_error(())),
        _ => Ok(true),
    }
}

/// Reads a value of `overflow`: one word, or one for each direction, of which the last is the vertical one.
fn is_clipped<'i>(input: &mut Parser<'i, '_>) -> Read<'i, bool> {
    let mut last = input.expect_ident()?.clone();
    while let Ok(next) = input.try_parse(|input| input.expect_ident().map(Clone::clone)) {
        last = next;
    }
    Ok(last.eq_ignore_ascii_case("hidden") || last.eq_ignore_ascii_case("clip"))
}

/// Reads a length or a word. Returns whether it is a length of 0.
fn is_zero_length<'i>(input: &mut Parser<'i, '_>) -> Read<'i, bool> {
    match *input.next()? {
        Token::Number { value, .. } | Token::Dimension { value, .. } => Ok(value == 0.0),
        Token::Percentage { .. } | Token::Ident(_) => Ok(false),
        _ => Err(input.new_custom_error(())),
    }
}

/// Reports whether a length of this unit is a part of the size around it, which may be 0.
fn is_relative(unit: &str) -> bool {
    ["em", "ex", "ch", "cap", "ic", "lh"].iter().any(|known| unit.eq_ignore_ascii_case(known))
}

/// Returns whether a token that is a size is above 0; `None` where it is none, or one relative to the size around it.
fn size_of(token: &Token<'_>) -> Option<bool> {
    match token {
        Token::Number { value, .. } => Some(*value != 0.0),
        Token::Percentage { unit_value, .. } => (*unit_value == 0.0).then(|| false),
        Token::Dimension { value, unit, .. } if *value == 0.0 || !is_relative(unit) => Some(*value != 0.0),
        Token::Ident(word) => {
            const SIZES: [&str; 9] = ["xx-small", "x-small", "small", "medium", "large", "x-large", "xx-large", "xxx-large", "initial"];
            SIZES.iter().any(|size| word.eq_ignore_ascii_case(size)).then(|| true)
        }
        _ => None,
    }
}

/// Reads a value of `font-size`. One that is relative to the size around it says nothing.
fn has_size<'i>(input: &mut Parser<'i, '_>) -> Read<'i, bool> {
    let size = size_of(input.next()?);
    size.ok_or_else(|| input.new_custom_error(()))
}

/// Reads a value of `font`, whose size follows words and a number for the weight.
fn font_has_size<'i>(input: &mut Parser<'i, '_>) -> Read<'i, bool> {
    const SYSTEM: [&str; 6] = ["caption", "icon", "menu", "message-box", "small-caption", "status-bar"];
    let mut found = None;
    while found.is_none() {
        let size = match input.next()? {
            Token::Number { value, .. } if *value != 0.0 => None,
            Token::Ident(word) if SYSTEM.iter().any(|font| word.eq_ignore_ascii_case(font)) => Some(Some(true)),
            token @ (Token::Dimension { .. } | Token::Percentage { .. }) => Some(size_of(token)),
            token => size_of(token).map(Some),
        };
        found = size;
    }
    // the line height and the families, up to `!important`
    while input.try_parse(|input| match input.next()? {
        Token::Delim('!') => Err(input.new_custom_error::<(), ()>(())),
        _ => Ok(()),
    }).is_ok() {}
    found.flatten().ok_or_else(|| input.new_custom_error(()))
}

#[cfg(test)]
mod tests {
    use super::*;

    fn drops(style: &str) -> bool {
        InlineStyle::of(style).drops(false)
    }

    #[test]
    fn what_drops_an_element() {
        for style in [
            "display:none",
            "color: red; DISPLAY: None !important; x",
            "display: block; display: none",
            "display: none !important; display: block",
            "mso-hide: all",
            "max-height: 0; overflow: hidden",
            "overflow:hidden;max-height:0px",
            "max-height: 0em; overflow: visible hidden",
        ] {
            assert!(drops(style) && InlineStyle::can_drop(style), "{style}");
        }
        for style in ["", "display: inline-block", "display: none; display: block", "display: none-such x y", "max-height: 0", "overflow: hidden", "max-height: 1px; overflow: hidden", "mso-hide: none"] {
            assert!(!drops(style), "{style}");
        }
        assert!(drops("display: n\\6fne") && InlineStyle::can_drop("display: n\\6fne"));
        assert!(!InlineStyle::can_drop("color: red; width: 100%"));
        assert!(InlineStyle::of("").drops(true));
        assert!(!InlineStyle::of("display: flex").drops(true));
    }

    #[test]
    fn what_hides_texts() {
        for (style, visible, size) in [
            ("visibility: hidden; font-size: 0", Some(false), Some(false)),
            ("visibility: collapse; font-size: 0px !important", Some(false), Some(false)),
            ("visibility: visible; font-size: 14px", Some(true), Some(true)),
            ("visibility: inherit; font-size: inherit", None, None),
            ("font-size: 0; font-size: small", None, Some(true)),
            ("font-size: 120%", None, None),
            ("font-size: 2em", None, None),
            ("font-size: 0%", None, Some(false)),
            ("font-size: 1rem", None, Some(true)),
            ("font: 0/0 a", None, Some(false)),
            ("font: bold 700 12px/1.5 Arial, sans-serif !important", None, Some(true)),
            ("font: 1em x", None, None),
            ("font: menu", None, Some(true)),
        ] {
            let read = InlineStyle::of(style);
            assert_eq!((read.is_visible(), read.has_size()), (visible, size), "{style}");
        }
    }

    #[test]
    fn styles_are_remembered() {
        let mut styles = Styles::default();
        for number in (0..2 * MAX_REMEMBERED).chain(0..4) {
            let text = format!("display: {}; font-size: {number}px", ["none", "block"][number % 2]);
            assert_eq!(styles.of(&text.as_str().into()).drops(false), number % 2 == 0, "{text}");
        }
        assert_eq!(styles.read.len(), MAX_REMEMBERED);
    }

    #[test]
    fn colours_and_white_space() {
        let style = InlineStyle::of("color: #f00; background: blue; white-space: pre-wrap !important; white-space: pre");
        assert_eq!(style.colour, Some(Declared { value: Colour { r: 255, g: 0, b: 0 }, is_important: false }));
        assert_eq!(style.background, Some(Declared { value: Colour { r: 0, g: 0, b: 255 }, is_important: false }));
        assert_eq!(style.white_space, Some(Declared { value: 2, is_important: true }));
    }
}
