//! A tree builder within limits. The regular parts of a page are put into its tree directly; html5ever's tree builder takes the rest.

use crate::classes::{class_of, Class};
use crate::direct::{Direct, Opening};
use crate::limits::{self, OpenElements, Refusal, Room, FEW_ATTRIBUTES};
use crate::names::is_asked_by_builder;
use crate::sink::{Sink, Wanted};
use crate::tree::Id;
use crate::written;
use html5ever::tokenizer::{Tag, TagKind, Token, TokenSink, TokenSinkResult};
use html5ever::tree_builder::{TreeBuilder, TreeBuilderOpts};
use html5ever::{local_name, Attribute, LocalName};
use tendril::StrTendril;

/// Number of held handles that are looked up for each node that is put into the tree without html5ever's tree builder, or else for each
/// token that it takes.
const LOOKED_UP: usize = 2;

/// The name of a tag, and the class of its elements.
#[derive(Clone, Debug)]
pub(crate) struct TagName {
    pub name: LocalName,
    pub class: Class,
}

/// A tree builder within limits, and what it was given last.
pub(crate) struct Watched<'a> {
    pub builder: TreeBuilder<Id, Sink>,
    pub refusal: Option<Refusal>,
    /// Whether the last token ends in the data state.
    pub is_at_end: bool,
    /// The element whose raw text follows the last token.
    pub raw: Option<LocalName>,
    is_asked: fn(&LocalName) -> bool,
    open: OpenElements,
    room: Room,
    page: &'a str,
    direct: Direct,
    /// White space directly in a table or a part of it, until it is known whether other text follows.
    spaces: &'a str,
    /// Whether a text was given after which a `frameset` is ignored.
    has_text: bool,
    /// Whether the body may have ended.
    is_over: bool,
    /// Whether the last token that html5ever's tree builder took has no effect on the next one but by what is open.
    is_settled: bool,
    /// Whether it is a text, which the tree builder holds back directly in a table or a part of it.
    is_text: bool,
    /// Number of tokens that html5ever's tree builder takes before its handles are looked up again.
    wait: usize,
    /// Number of nodes that the tree has to have, where html5ever's tree builder is needed again, for the last look-up to have paid.
    paid_at: usize,
    /// Number of attributes of the tag that had most.
    #[cfg(test)]
    pub most_attributes: usize,
}

impl<'a> Watched<'a> {
    pub fn new(page: &'a str, sink: Sink, wanted: Wanted, options: TreeBuilderOpts) -> Watched<'a> {
        Watched {
            builder: TreeBuilder::new(sink, options),
            refusal: None,
            is_at_end: false,
            raw: None,
            is_asked: wanted.is_asked,
            open: OpenElements::default(),
            room: Room::new(wanted.max_nodes),
            page,
            direct: Direct::default(),
            spaces: "",
            has_text: false,
            is_over: false,
            is_settled: false,
            is_text: false,
            wait: 0,
            paid_at: 0,
            #[cfg(test)]
            most_attributes: 0,
        }
    }

    #[inline]
    pub fn look_at_size(&mut self) {
        if !self.room.is_enough(&self.builder.sink.tree) {
            self.refusal = self.room.make(&mut self.builder.sink.tree).err();
        }
    }

    /// Drops what a tag has past the limit of attributes.
    fn limit(&mut self, tag: &mut Tag) {
        #[cfg(test)]
        {
            self.most_attributes = self.most_attributes.max(tag.attrs.len());
        }
        if tag.attrs.len() > FEW_ATTRIBUTES {
            let is_asked = |name: &LocalName| (self.is_asked)(name) || is_asked_by_builder(name);
            // in foreign elements html5ever takes `xlink:href` for `href` in a namespace
            let is_asked_by_part = |name: &LocalName| name.split_once(':').map_or(false, |(_, part)| is_asked(&part.into()));
            tag.attrs.retain(|attribute| is_asked(&attribute.name.local) || is_asked_by_part(&attribute.name.local));
        }
    }

    /// Takes a token of html5ever's tokenizer.
    fn take(&mut self, mut token: Token) -> TokenSinkResult<Id> {
        if let Token::TagToken(tag) = &mut token {
            self.limit(tag);
        }
        if self.refusal.is_some() {
            return TokenSinkResult::Continue;
        }
        match token {
            Token::TagToken(Tag { kind: TagKind::EndTag, name, .. }) => self.take_end_tag(&name, class_of(&name)),
            Token::TagToken(Tag { name, mut attrs, self_closing, .. }) => {
                let class = class_of(&name);
                self.take_start_tag(TagName { name, class }, &mut attrs, self_closing, None)
            }
            Token::CharacterTokens(text) if self.is_in_flow() => {
                self.put_text(&text);
                TokenSinkResult::Continue
            }
            Token::NullCharacterToken if self.is_in_flow() => TokenSinkResult::Continue,
            Token::CommentToken(_) if self.direct.is_known() => {
                self.put_comment();
                TokenSinkResult::Continue
            }
            token => self.give(token),
        }
    }

    /// Takes a start tag, which begins at an offset of the page if it is plainly written.
    #[inline]
    pub fn take_start_tag(&mut self, tag: TagName, attributes: &mut Vec<Attribute>, self_closing: bool, start: Option<usize>) -> TokenSinkResult<Id> {
        if !self.has_room(&tag.name) {
            attributes.clear();
            return TokenSinkResult::Continue;
        }
        let Sink { is_quirky, tree, .. } = &self.builder.sink;
        let opening = self.direct.opening(tag.class, &tag.name, *is_quirky, tree);
        let is_formatting = matches!(tag.class, Class::Formatting | Class::Anchor);
        match (opening, start) {
            (Some(opening), Some(start)) => self.open(opening, tag, attributes, start),
            (Some(opening), None) if !is_formatting => self.open(opening, tag, attributes, 0),
            (opening, _) => {
                let token = Token::TagToken(Tag { kind: TagKind::StartTag, name: tag.name, self_closing, attrs: std::mem::take(attributes) });
                return match opening {
                    Some(_) => self.open_formatting(token, tag.class),
                    None => self.give(token),
                };
            }
        }
        TokenSinkResult::Continue
    }

    /// Has html5ever's tree builder open a formatting element, which it compares with others by attributes, in the innermost one.
    fn open_formatting(&mut self, token: Token, class: Class) -> TokenSinkResult<Id> {
        self.tell();
        let result = self.builder.process_token(token, 1);
        self.direct.push_told(self.builder.sink.tree.last_id(), class);
        self.look_at_size();
        result
    }

    /// Takes an end tag.
    #[inline]
    pub fn take_end_tag(&mut self, name: &LocalName, class: Class) -> TokenSinkResult<Id> {
        self.open.forget();
        match self.direct.closing(class, name, &self.builder.sink.tree) {
            Some(count) => {
                self.put_spaces();
                self.close(count);
                TokenSinkResult::Continue
            }
            None => self.give(end_tag(name.clone())),
        }
    }

    /// Takes a comment.
    pub fn take_comment(&mut self) {
        self.learn();
        if self.direct.is_known() {
            self.put_comment();
        } else {
            let _ = self.give(Token::CommentToken(StrTendril::new()));
        }
    }

    /// Takes a text of the page in the data state, if no tree builder is needed. Returns whether it does.
    #[inline]
    pub fn takes_text(&mut self, text: &'a str) -> bool {
        self.learn();
        if self.is_in_flow() {
            self.put_text(text);
            return true;
        }
        let is_blank = is_blank(text);
        if self.direct.is_known() && is_blank && self.spaces.is_empty() {
            self.spaces = text;
            return true;
        }
        self.has_text |= !is_blank;
        false
    }

    /// Takes a character of a text.
    pub fn take_char(&mut self, c: char) {
        self.learn();
        if self.is_in_flow() {
            self.put_text(c.encode_utf8(&mut [0; 4]));
        } else {
            self.has_text |= !c.is_ascii_whitespace();
            let _ = self.give(Token::CharacterTokens(StrTendril::from_char(c)));
        }
    }

    /// Reports whether texts belong to the innermost element, which is known.
    #[inline]
    fn is_in_flow(&self) -> bool {
        self.direct.innermost().map_or(false, |open| !open.class.is_table_part())
    }

    /// Appends a text to the innermost element.
    #[inline]
    fn put_text(&mut self, text: &str) {
        if let Some(open) = self.direct.innermost() {
            self.builder.sink.tree.append_text(open.node, text);
            self.look_at_size();
        }
    }

    /// Appends white space that is followed by no other text.
    #[inline]
    fn put_spaces(&mut self) {
        if !self.spaces.is_empty() {
            let spaces = std::mem::take(&mut self.spaces);
            self.put_text(spaces);
        }
    }

    /// Appends a comment to the innermost element.
    fn put_comment(&mut self) {
        self.put_spaces();
        if let Some(open) = self.direct.innermost() {
            self.builder.sink.append_comment(open.node);
            self.look_at_size();
        }
    }

    /// Opens the element of a start tag.
    #[inline]
    fn open(&mut self, opening: Opening, tag: TagName, attributes: &mut Vec<Attribute>, start: usize) {
        self.put_spaces();
        self.close(opening.closed);
        if opening.opens_section {
            self.open_element(TagName { name: local_name!("tbody"), class: Class::Section }, &mut Vec::new(), 0);
        }
        if opening.opens_row {
            self.open_element(TagName { name: local_name!("tr"), class: Class::Row }, &mut Vec::new(), 0);
        }
        self.open_element(tag, attributes, start);
        self.look_at_size();
    }

    #[inline]
    fn open_element(&mut self, tag: TagName, attributes: &mut Vec<Attribute>, start: usize) {
        if let Some(open) = self.direct.innermost() {
            let node = self.builder.sink.append_element(open.node, tag.name, tag.class, attributes);
            if !matches!(tag.class, Class::Void | Class::Rule) {
                self.direct.push(node, tag.class, start);
            }
        }
    }

    /// Closes the innermost elements, so many of them. Html5ever's tree builder closes those that it was told of.
    #[inline]
    fn close(&mut self, count: usize) {
        for _ in 0..count {
            if let Some(node) = self.direct.close() {
                self.close_told(node);
            }
        }
    }

    #[cold]
    fn close_told(&mut self, node: Id) {
        if let Some(element) = self.builder.sink.tree.element(node) {
            let name = element.name.clone();
            let _ = self.builder.process_token(end_tag(name), 1);
        }
    }

    /// Reports whether there is room for the element of a start tag.
    #[inline]
    fn has_room(&mut self, name: &LocalName) -> bool {
        if self.open.are_few(&self.builder.sink.tree) {
            return true;
        }
        self.tell();
        self.open.have_room(name, &self.builder)
    }

    /// Gives html5ever's tree builder a token, after which it has to be learned anew what is open.
    pub fn give(&mut self, token: Token) -> TokenSinkResult<Id> {
        if self.direct.is_known() {
            self.leave(&token);
        }
        self.wait = self.wait.saturating_sub(1);
        self.is_settled = is_settled_by(&token);
        self.is_text = matches!(token, Token::CharacterTokens(_));
        self.is_over |= is_end_of_body(&token);
        let result = self.builder.process_token(token, 1);
        self.look_at_size();
        result
    }

    /// Has html5ever's tree builder go on where the open elements are known.
    fn leave(&mut self, token: &Token) {
        if !holds_spaces(token) {
            self.put_spaces();
        }
        if !matches!(token, Token::EOFToken) {
            self.tell();
        }
        if !self.spaces.is_empty() {
            let spaces = StrTendril::from_slice(std::mem::take(&mut self.spaces));
            let _ = self.builder.process_token(Token::CharacterTokens(spaces), 1);
        }
        self.direct.forget();
        if self.builder.sink.tree.node_count() >= self.paid_at {
            self.wait = 0;
        }
    }

    /// Tells html5ever's tree builder of all open elements.
    fn tell(&mut self) {
        while let Some(open) = self.direct.tell() {
            // other elements aren't compared by their attributes
            let is_formatting = matches!(open.class, Class::Formatting | Class::Anchor);
            let attrs = if is_formatting { written::attributes(&self.page[open.start..]) } else { Vec::new() };
            let sink = &mut self.builder.sink;
            if let Some(element) = sink.tree.element(open.node) {
                let name = element.name.clone();
                sink.retold = Some(open.node);
                let _ = self.builder.process_token(Token::TagToken(Tag { kind: TagKind::StartTag, name, self_closing: false, attrs }), 1);
            }
        }
        #[cfg(test)]
        self.check_told();
    }

    /// Learns what is open, if that isn't known and html5ever's tree builder can tell.
    #[inline]
    pub fn learn(&mut self) {
        if !self.direct.is_known() && self.is_settled && self.has_text && !self.is_over && self.wait == 0 {
            self.look_up();
        }
    }

    #[cold]
    fn look_up(&mut self) {
        let held = limits::held_by(&self.builder);
        self.direct.learn(&held, &self.builder.sink.tree);
        if self.is_text && !self.is_in_flow() {
            self.direct.forget();
        }
        self.wait = held.len() / LOOKED_UP;
        self.paid_at = self.builder.sink.tree.node_count() + self.wait;
    }

    /// Checks that html5ever's tree builder has the elements open that it was told of.
    #[cfg(test)]
    fn check_told(&self) {
        if self.direct.is_known() {
            let (held, open) = (limits::held_by(&self.builder), self.direct.open_nodes());
            assert_eq!(held[1..][..open.len()], open, "{:?}", self.page);
            let mut other = Direct::default();
            if other.learn(&held, &self.builder.sink.tree) {
                assert_eq!(other.open_nodes(), open, "{:?}", self.page);
            }
        }
    }
}

/// Reports whether a token's effect on html5ever's tree builder ends with it, but for what is open.
fn is_settled_by(token: &Token) -> bool {
    match token {
        // a newline that follows is dropped
        Token::TagToken(Tag { kind: TagKind::StartTag, name: local_name!("pre") | local_name!("listing"), .. }) => false,
        Token::TagToken(_) | Token::CommentToken(_) | Token::CharacterTokens(_) => true,
        _ => false,
    }
}

/// Reports whether html5ever still holds back the white space in a table after a token: the next text may move that out of the table.
fn holds_spaces(token: &Token) -> bool {
    matches!(token, Token::CharacterTokens(_) | Token::NullCharacterToken | Token::DoctypeToken(_))
}

/// Reports whether a token can end the body.
fn is_end_of_body(token: &Token) -> bool {
    matches!(token, Token::TagToken(Tag { kind: TagKind::EndTag, name: local_name!("body") | local_name!("html"), .. }))
}

/// Reports whether a text is white space alone.
fn is_blank(text: &str) -> bool {
    text.bytes().all(|byte| byte.is_ascii_whitespace())
}

/// Returns an end tag.
fn end_tag(name: LocalName) -> Token {
    Token::TagToken(Tag { kind: TagKind::EndTag, name, self_closing: false, attrs: Vec::new() })
}

impl TokenSink for Watched<'_> {
    type Handle = Id;

    fn process_token(&mut self, token: Token, line: u64) -> TokenSinkResult<Id> {
        let (can_end, name) = match &token {
            Token::ParseError(_) => return self.builder.process_token(token, line),
            Token::TagToken(tag) => (true, Some(tag.name.clone())),
            Token::CommentToken(_) | Token::DoctypeToken(_) => (true, None),
            _ => (false, None),
        };
        let result = self.take(token);
        let is_data = matches!(result, TokenSinkResult::Continue | TokenSinkResult::Script(_));
        self.is_at_end = can_end && is_data;
        if can_end {
            self.raw = name.filter(|_| !is_data);
        }
        result
    }

    fn end(&mut self) {
        self.builder.end();
    }

    fn adjusted_current_node_present_but_not_in_html_namespace(&self) -> bool {
        self.builder.adjusted_current_node_present_but_not_in_html_namespace()
    }
}
