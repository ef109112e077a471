//! Rules of style sheets that hide elements, asked as a page is recorded: what is hidden has no footnotes and no numbers.

use crate::css;
use crate::records::Setting;
use crate::tree::Attr;
use html5ever::local_name;
use std::collections::HashMap;

/// The selector of a rule that hides elements.
#[derive(Clone, Debug)]
struct Selector {
    element: Option<String>,
    id: Option<String>,
    classes: Vec<String>,
    is_important: bool,
}

/// The rules of style sheets that hide elements, each by one part of its selector.
#[derive(Clone, Debug, Default)]
pub(crate) struct Hiding {
    has_rules: bool,
    of_ids: HashMap<String, Vec<Selector>>,
    of_classes: HashMap<String, Vec<Selector>>,
    of_elements: HashMap<String, Vec<Selector>>,
    of_all: Vec<Selector>,
}

impl Hiding {
    /// Takes the rules that hide elements out of settings, whose texts are pieces of a text.
    pub fn take_from(settings: &mut Vec<Setting>, text: &str) -> Hiding {
        let piece = |start: u32, length: u32| text[start as usize..][..length as usize].to_owned();
        let mut hiding = Hiding::default();
        settings.retain(|setting| {
            let hides = css::hides(setting);
            if hides {
                hiding.add(Selector {
                    element: css::has_element(setting).then(|| piece(setting.element, setting.element_length)),
                    id: css::has_id(setting).then(|| piece(setting.id, setting.id_length)),
                    classes: piece(setting.classes, setting.classes_length).split_ascii_whitespace().map(str::to_owned).collect(),
                    is_important: css::is_important(setting),
                });
            }
            !hides
        });
        hiding
    }

    fn add(&mut self, selector: Selector) {
        self.has_rules = true;
        let selectors = match &selector {
            Selector { id: Some(id), .. } => self.of_ids.entry(id.clone()).or_default(),
            Selector { classes, .. } if !classes.is_empty() => self.of_classes.entry(classes[0].clone()).or_default(),
            Selector { element: Some(element), .. } => self.of_elements.entry(element.clone()).or_default(),
            _ => &mut self.of_all,
        };
        selectors.push(selector);
    }

    /// Reports whether there are any.
    #[inline]
    pub fn has_rules(&self) -> bool {
        self.has_rules
    }

    /// Reports whether a rule hides an element; an important one, if the element's own style displays it.
    pub fn hides(&self, name: &str, attributes: &[Attr], is_displayed: bool) -> bool {
        let value = |name| attributes.iter().find(|attribute| attribute.name == name).map(|attribute| &*attribute.value);
        let (id, class) = (value(local_name!("id")), value(local_name!("class")).unwrap_or(""));
        let has_class = |class_of_rule: &String| class.split_ascii_whitespace().any(|word| word == class_of_rule);
        let matches = |selector: &Selector| {
            (selector.is_important || !is_displayed)
                && selector.element.as_ref().map_or(true, |element| element == name)
                && selector.id.as_deref().map_or(true, |of_rule| Some(of_rule) == id)
                && selector.classes.iter().all(has_class)
        };
        let of_id = id.and_then(|id| self.of_ids.get(id));
        let of_classes = class.split_ascii_whitespace().filter_map(|word| self.of_classes.get(word));
        let mut found = of_id.into_iter().chain(of_classes).chain(self.of_elements.get(name)).flatten().chain(&self.of_all);
        found.any(matches)
    }
}
