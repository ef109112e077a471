//! Style sheets: the rules of CSS that the renderer has, read by Mozilla's `cssparser`.
//!
//! A rule selects by a compound of an element's name, an id and classes, for the element itself or for what stands before or after
//! its children; other selectors and at-rules are passed over. It declares `color`, `background-color`, `background` where that
//! is a colour alone, `display: none`, `white-space` and `content`; other declarations are passed over.

use crate::adapt::RULE_CLASS;
use crate::characters::Filter;
use crate::lines::Colour;
use crate::records::Setting;
use crate::tree::Piece;
use cssparser::{
    parse_important, AtRuleParser, Color, CowRcStr, DeclarationListParser, DeclarationParser, ParseError, Parser, ParserInput,
    ParserState, QualifiedRuleParser, RuleListParser, Token, RGBA,
};

/// Where a style sheet comes from.
#[derive(Clone, Copy)]
pub(crate) enum Origin {
    /// The renderer itself.
    Agent = 1,
    /// The user.
    User = 2,
    /// The document.
    Author = 3,
}

/// The place that a rule is for.
#[derive(Clone, Copy, Default)]
enum Place {
    /// The element.
    #[default]
    Element = 0,
    /// Before what stands in it.
    Before = 8,
    /// After that.
    After = 16,
}

/// A compound selector.
#[derive(Clone, Default)]
struct Selector {
    element: Option<String>,
    id: Option<String>,
    classes: Vec<String>,
    place: Place,
}

/// What is declared.
pub(crate) enum Value {
    Colour(Colour),
    Background(Colour),
    DisplayNone,
    WhiteSpace(u32),
    Content(String),
}

struct Declaration {
    value: Value,
    important: bool,
}

/// A rule of a style sheet.
struct Rule {
    selectors: Vec<Selector>,
    declarations: Vec<Declaration>,
}

/// Numbers of properties.
pub(crate) const COLOUR: u32 = 0;
pub(crate) const BACKGROUND: u32 = 1;
const DISPLAY_NONE: u32 = 2;
pub(crate) const WHITE_SPACE: u32 = 3;
const CONTENT: u32 = 4;

/// Number of the value `pre-wrap` of `white-space`.
pub(crate) const PRE_WRAP: u32 = 2;

const IMPORTANT: u32 = 4;
const HAS_ELEMENT: u32 = 32;
const HAS_ID: u32 = 64;
const ADD_STYLE_RULE: u32 = 13;

pub(crate) type Read<'i, T> = Result<T, ParseError<'i, ()>>;

/// The next token, which may be white space.
fn next<'i>(input: &mut Parser<'i, '_>) -> Read<'i, Token<'i>> {
    Ok(input.next_including_whitespace()?.clone())
}

/// A name that stands without white space before it.
fn name<'i>(input: &mut Parser<'i, '_>) -> Read<'i, CowRcStr<'i>> {
    match next(input)? {
        Token::Ident(name) => Ok(name),
        _ => Err(input.new_custom_error(())),
    }
}

/// A class. One with white space in it is no word, so that no element has it.
fn class<'i>(input: &mut Parser<'i, '_>) -> Read<'i, String> {
    let name = name(input)?;
    if name.contains(|c: char| c.is_ascii_whitespace()) {
        return Err(input.new_custom_error(()));
    }
    Ok(name.as_ref().to_owned())
}

/// The place that stands behind a colon: `before` or `after`, behind another colon or none.
fn place<'i>(input: &mut Parser<'i, '_>) -> Read<'i, Place> {
    let _ = input.try_parse(|input| match next(input)? {
        Token::Colon => Ok(()),
        _ => Err(input.new_custom_error::<(), ()>(())),
    });
    let name = name(input)?;
    if name.eq_ignore_ascii_case("before") {
        Ok(Place::Before)
    } else if name.eq_ignore_ascii_case("after") {
        Ok(Place::After)
    } else {
        Err(input.new_custom_error(()))
    }
}

/// A compound selector, to its end.
fn selector<'i>(input: &mut Parser<'i, '_>) -> Read<'i, Selector> {
    let mut selector = Selector::default();
    input.skip_whitespace();
    match next(input)? {
        Token::Ident(name) => selector.element = Some(name.to_ascii_lowercase()),
        Token::IDHash(id) => selector.id = Some(id.as_ref().to_owned()),
        Token::Delim('.') => selector.classes.push(class(input)?),
        Token::Delim('*') => {}
        _ => return Err(input.new_custom_error(())),
    }
    while let Ok(token) = next(input) {
        match token {
            Token::IDHash(id) if selector.id.is_none() => selector.id = Some(id.as_ref().to_owned()),
            Token::Delim('.') => selector.classes.push(class(input)?),
            Token::Colon => {
                selector.place = place(input)?;
                break;
            }
            Token::WhiteSpace(_) => break,
            _ => return Err(input.new_custom_error(())),
        }
    }
    input.expect_exhausted()?;
    Ok(selector)
}

fn colour<'i>(input: &mut Parser<'i, '_>) -> Read<'i, Colour> {
    match Color::parse(input)? {
        Color::RGBA(RGBA { red, green, blue, alpha }) if alpha > 0 => Ok(Colour { r: red, g: green, b: blue }),
        _ => Err(input.new_custom_error(())),
    }
}

/// One of these words, by its number.
pub(crate) fn word<'i>(input: &mut Parser<'i, '_>, words: &[&str]) -> Read<'i, u32> {
    let word = input.expect_ident()?.clone();
    let found = words.iter().position(|known| word.eq_ignore_ascii_case(known));
    found.map(|number| number as u32).ok_or_else(|| input.new_custom_error(()))
}

/// Strings, one behind the other.
fn content<'i>(input: &mut Parser<'i, '_>) -> Read<'i, String> {
    let mut content = input.expect_string()?.as_ref().to_owned();
    while let Ok(more) = input.try_parse(|input| input.expect_string_cloned()) {
        content.push_str(&more);
    }
    Ok(content)
}

/// Reads the value of a property.
pub(crate) fn value<'i>(property: &str, input: &mut Parser<'i, '_>) -> Read<'i, Value> {
    Ok(match property.to_ascii_lowercase().as_str() {
        "color" => Value::Colour(colour(input)?),
        "background-color" | "background" => Value::Background(colour(input)?),
        "display" => {
            word(input, &["none"])?;
            Value::DisplayNone
        }
        "white-space" => Value::WhiteSpace(word(input, &["normal", "pre", "pre-wrap"])?),
        "content" => Value::Content(content(input)?),
        _ => return Err(input.new_custom_error(())),
    })
}

/// Reads the declarations of a rule.
struct Declarations;

impl<'i> DeclarationParser<'i> for Declarations {
    type Declaration = Declaration;
    type Error = ();

    fn parse_value<'t>(&mut self, name: CowRcStr<'i>, input: &mut Parser<'i, 't>) -> Read<'i, Declaration> {
        let value = value(&name, input)?;
        let important = input.try_parse(parse_important).is_ok();
        Ok(Declaration { value, important })
    }
}

impl<'i> AtRuleParser<'i> for Declarations {
    type Prelude = ();
    type AtRule = Declaration;
    type Error = ();
}

/// Reads the rules of a style sheet.
struct Rules;

impl<'i> QualifiedRuleParser<'i> for Rules {
    type Prelude = Vec<Selector>;
    type QualifiedRule = Rule;
    type Error = ();

    fn parse_prelude<'t>(&mut self, input: &mut Parser<'i, 't>) -> Read<'i, Vec<Selector>> {
        let parts = input.parse_comma_separated(|part| {
            let selector = part.try_parse(selector).ok();
            while part.next().is_ok() {}
            Ok(selector)
        })?;
        Ok(parts.into_iter().flatten().collect())
    }

    fn parse_block<'t>(&mut self, selectors: Vec<Selector>, _: &ParserState, input: &mut Parser<'i, 't>) -> Read<'i, Rule> {
        let declarations = DeclarationListParser::new(input, Declarations).flatten().collect();
        Ok(Rule { selectors, declarations })
    }
}

impl<'i> AtRuleParser<'i> for Rules {
    type Prelude = ();
    type AtRule = Rule;
    type Error = ();
}

pub(crate) fn rgb(colour: Colour) -> u32 {
    u32::from_be_bytes([0, colour.r, colour.g, colour.b])
}

/// A rule of one declaration for the elements of a class, and of an id if one is stated.
pub(crate) struct RuleOf {
    pub origin: Origin,
    pub property: u32,
    pub value: u32,
    pub is_important: bool,
    pub id: Option<Piece>,
    pub classes: Piece,
}

/// Returns the record of a rule.
pub(crate) fn setting_of(rule: RuleOf) -> Setting {
    let (id, id_length) = rule.id.unwrap_or_default();
    let (classes, classes_length) = rule.classes;
    let important = if rule.is_important { IMPORTANT } else { 0 };
    let has_id = if rule.id.is_some() { HAS_ID } else { 0 };
    Setting {
        kind: ADD_STYLE_RULE,
        number: rule.property,
        value: rule.value,
        flags: rule.origin as u32 | important | has_id,
        id,
        id_length,
        classes,
        classes_length,
        ..Setting::default()
    }
}

/// Reports whether a record is a rule by which elements aren't displayed.
pub(crate) fn hides(setting: &Setting) -> bool {
    setting.kind == ADD_STYLE_RULE && setting.number == DISPLAY_NONE && setting.flags & (Place::Before as u32 | Place::After as u32) == 0
}

/// Reports whether a record is a rule for white space.
pub(crate) fn sets_white_space(setting: &Setting) -> bool {
    setting.kind == ADD_STYLE_RULE && setting.number == WHITE_SPACE
}

pub(crate) fn has_element(rule: &Setting) -> bool {
    rule.flags & HAS_ELEMENT != 0
}

pub(crate) fn has_id(rule: &Setting) -> bool {
    rule.flags & HAS_ID != 0
}

pub(crate) fn is_important(rule: &Setting) -> bool {
    rule.flags & IMPORTANT != 0
}

/// What an agent's rule is for.
pub(crate) enum Unsigned {
    Element(Piece),
    Class(Piece),
}

/// Returns the records of the agent's rules that write nothing before and after what is in an element.
pub(crate) fn without_signs(of: Unsigned) -> [Setting; 2] {
    let (has_element, (element, element_length), classes) = match of {
        Unsigned::Element(element) => (HAS_ELEMENT, element, (0, 0)),
        Unsigned::Class(class) => (0, (0, 0), class),
    };
    [Place::Before, Place::After].map(|place| {
        let rule = setting_of(RuleOf { origin: Origin::Agent, property: CONTENT, value: 0, is_important: false, id: None, classes });
        Setting { flags: rule.flags | place as u32 | has_element, element, element_length, ..rule }
    })
}

/// Returns the record of a declaration, whose texts are kept by a function. Content goes through a filter.
fn setting(origin: Origin, selector: &Selector, declaration: &Declaration, filter: Filter, keep: &mut impl FnMut(&str) -> Piece) -> Setting {
    let (property, value, content) = match &declaration.value {
        Value::Colour(colour) => (COLOUR, rgb(*colour), ""),
        Value::Background(colour) => (BACKGROUND, rgb(*colour), ""),
        Value::DisplayNone => (DISPLAY_NONE, 0, ""),
        Value::WhiteSpace(space) => (WHITE_SPACE, *space, ""),
        Value::Content(content) => (CONTENT, 0, content.as_str()),
    };
    let (text, text_length) = keep(&filter.filtered(content));
    let (element, element_length) = keep(selector.element.as_deref().unwrap_or(""));
    let id = selector.id.as_deref().map(&mut *keep);
    let classes = keep(&selector.classes.join(" "));
    let rule = setting_of(RuleOf { origin, property, value, is_important: declaration.important, id, classes });
    let has_element = if selector.element.is_some() { HAS_ELEMENT } else { 0 };
    let flags = rule.flags | selector.place as u32 | has_element;
    Setting { flags, text, text_length, element, element_length, ..rule }
}

/// Reports whether an element of this name is a part of a table, which is recorded under another name where the table isn't drawn.
fn is_part(name: &str) -> bool {
    matches!(name, "caption" | "table" | "tbody" | "td" | "tfoot" | "th" | "thead" | "tr")
}

/// Returns the selector under which an element is recorded that has another name there: an `hr` is a `div` of a private class, and a
/// part of a table is a `div` or a `span` of one.
fn renamed(selector: &Selector) -> Option<Selector> {
    let (element, class) = match selector.element.as_deref()? {
        "hr" => (Some("div".to_owned()), RULE_CLASS.to_owned()),
        name if is_part(name) => (None, format!("\0{name}")),
        _ => return None,
    };
    let mut renamed = Selector { element, ..selector.clone() };
    renamed.classes.push(class);
    Some(renamed)
}

/// What is read of a style sheet.
#[derive(Clone, Copy, Debug, Default)]
pub(crate) struct Sheet {
    /// Number of classes of the selector that has most.
    pub most_classes: usize,
    /// Whether a rule selects by the name of a part of a table.
    pub names_parts: bool,
    /// Whether each of its rules has a block.
    pub is_well: bool,
}

/// Appends the records of a style sheet to settings, whose texts are kept by a function. Content goes through a filter.
pub(crate) fn read(css: &str, origin: Origin, filter: Filter, settings: &mut Vec<Setting>, mut keep: impl FnMut(&str) -> Piece) -> Sheet {
    let mut input = ParserInput::new(css);
    let mut parser = Parser::new(&mut input);
    let mut sheet = Sheet { is_well: true, ..Sheet::default() };
    for rule in RuleListParser::new_for_stylesheet(&mut parser, Rules) {
        match rule {
            Ok(rule) => {
                let renamed: Vec<Selector> = rule.selectors.iter().filter_map(renamed).collect();
                for selector in rule.selectors.iter().chain(&renamed) {
                    sheet.most_classes = sheet.most_classes.max(selector.classes.len());
                    sheet.names_parts |= !rule.declarations.is_empty() && selector.element.as_deref().map_or(false, is_part);
                    settings.extend(rule.declarations.iter().map(|declaration| setting(origin, selector, declaration, filter, &mut keep)));
                }
            }
            // an at-rule is passed over
            Err((_, text)) => sheet.is_well &= text.trim_start().starts_with('@'),
        }
    }
    sheet
}
