//! Inline styles as rules of private classes.
//!
//! A rule of the library selects by a name, an id and classes. A declaration of an attribute `style` becomes an author's rule for a
//! class that no page has, U+0000 and a number, which the element gets. The rule states the element's id, if it has one, and the
//! class once more than any rule of a sheet has classes, so that none of these has a higher specificity.

use super::style::{Declared, InlineStyle};
use crate::css::{self, Origin, RuleOf};
use crate::records::Setting;
use crate::tree::Piece;
use std::collections::HashMap;

/// The private class of elements that were an `hr`.
pub(crate) const RULE_CLASS: &str = "\0hr";

/// Maximum number of times that a class is stated.
const MAX_STATED: usize = 1_000;

/// A declaration: a property and a value, as the library numbers them, and whether it is important.
type Declaration = (u32, u32, bool);

/// The declarations of inline styles, and the elements that they are for.
#[derive(Default)]
pub(crate) struct PrivateRules {
    classes: HashMap<Declaration, u32>,
    /// Declarations in the order of their numbers, and whether some element without an id has them.
    declarations: Vec<(Declaration, bool)>,
    /// Ids of elements, and the numbers of the declarations that they have.
    of_ids: Vec<(Piece, u32)>,
}

/// Appends a private class to the value of an attribute `class`.
fn push_class(classes: &mut String, number: u32) {
    if !classes.is_empty() {
        classes.push(' ');
    }
    classes.push('\0');
    classes.push_str(&number.to_string());
}

impl PrivateRules {
    /// Adds the rules of an element's style, those of colours if they are annotated. Appends its private classes.
    pub fn add(&mut self, style: &InlineStyle, has_colours: bool, id: Option<Piece>, classes: &mut String) {
        for (property, declared) in [(css::COLOUR, style.colour), (css::BACKGROUND, style.background)] {
            if let Some(Declared { value, is_important }) = declared.filter(|_| has_colours) {
                self.declare((property, css::rgb(value), is_important), id, classes);
            }
        }
        if let Some(Declared { value, is_important }) = style.white_space {
            self.declare((css::WHITE_SPACE, value, is_important), id, classes);
        }
    }

    /// Adds the rule of elements whose white space is kept where it fits on a line. Appends their class.
    pub fn keep_spaces(&mut self, classes: &mut String) {
        self.declare((css::WHITE_SPACE, css::PRE_WRAP, false), None, classes);
    }

    fn declare(&mut self, declaration: Declaration, id: Option<Piece>, classes: &mut String) {
        let next = self.declarations.len() as u32;
        let number = *self.classes.entry(declaration).or_insert(next);
        if number == next {
            self.declarations.push((declaration, false));
        }
        match id {
            Some(id) => self.of_ids.push((id, number)),
            None => self.declarations[number as usize].1 = true,
        }
        push_class(classes, number);
    }

    /// Adds the records of the rules to settings, where `most` is the number of classes of the rule that has most. Texts are kept by
    /// a function.
    pub fn push_settings(&self, most: usize, settings: &mut Vec<Setting>, mut keep: impl FnMut(&str) -> Piece) {
        let stated = (most + 1).min(MAX_STATED);
        let mut classes = Vec::with_capacity(self.declarations.len());
        for (number, &(declaration, is_without_id)) in self.declarations.iter().enumerate() {
            let mut text = String::new();
            for _ in 0..stated {
                push_class(&mut text, number as u32);
            }
            let piece = keep(&text);
            classes.push(piece);
            if is_without_id {
                settings.push(rule(declaration, piece, None));
            }
        }
        settings.extend(self.of_ids.iter().map(|&(id, number)| rule(self.declarations[number as usize].0, classes[number as usize], Some(id))));
    }
}

fn rule((property, value, is_important): Declaration, classes: Piece, id: Option<Piece>) -> Setting {
    css::setting_of(RuleOf { origin: Origin::Author, property, value, is_important, id, classes })
}
