/* Renders documents as wrapped text, in one of two ways:
 * - html_render_html and html_render_html_lines render a page of HTML as a browser shows it. page.c is such a program.
 *   Only the shared library has these calls, libhtml_render.so.0.
 * - A program records a document and settings call by call, and renders the recording. example.c is such a program.
 *   The static library has these calls too.
 *
 * Any number of threads may call at the same time.
 *
 * Calls that record:
 * - They copy names and texts, which are UTF-8. Lengths are in bytes; a text without a length ends with a zero byte. A
 *   text of length 0 may be NULL.
 * - They return no status. The call that renders reports the first faulty one, or that memory was out during any.
 * - html_render_set and html_render_add_rule record settings, all others steps. Settings are numbered from 0 in order,
 *   and so are steps.
 * - A step is faulty if it names a node that isn't there yet, if a name or a text isn't UTF-8, or if what its call
 *   requires doesn't hold.
 *
 * Nothing checks the following, so the caller ensures it:
 * - A recording isn't NULL, except for html_render_drop.
 * - A pointer leads to the bytes that its length says, and nothing changes them during the call.
 * - One thread at a time uses a recording, and no signal handler calls this library.
 * - malloc, realloc and free are the program's only allocator, and none of them is called for what this library holds.
 * - Texts and attributes that are recorded of an untrusted page have no control characters. They are rendered as they
 *   are recorded, so that U+001B in the target of a link can make a terminal write to its clipboard. html_render_html
 *   drops U+0000 to U+001F but tab and newline, U+007F to U+009F, U+202A to U+202E and U+2066 to U+2069.
 */
#ifndef HTML_RENDER_H
#define HTML_RENDER_H

#include <stddef.h>
#include <stdint.h>

#ifdef __cplusplus
extern "C" {
#endif

/* Version of this header. */
#define HTML_RENDER_VERSION "0.1.0"
#define HTML_RENDER_VERSION_MAJOR 0
#define HTML_RENDER_VERSION_MINOR 1
#define HTML_RENDER_VERSION_PATCH 0

/* Returns the version of the library, such as "0.1.0". Nothing frees it. */
const char *html_render_version(void);

/* Status of a call that renders. HTML_RENDER_OUT_OF_MEMORY is possible at any time. Of several other causes the first
 * counts, in this order: the decorator, a setting, a step, HTML_RENDER_FAIL, HTML_RENDER_TOO_NARROW. Only calls that
 * take a page of HTML return HTML_RENDER_TOO_LARGE and the statuses after it. */
enum html_render_status {
    HTML_RENDER_OK = 0,
    /* The width is 0; or overflow is off, and a text or a character needs more columns than there are. */
    HTML_RENDER_TOO_NARROW = 1,
    /* A part of a table, such as a row, is outside its place, or a cell would end after column 2^128 - 1. */
    HTML_RENDER_FAIL = 2,
    /* An allocation was refused, while recording or rendering; or a recording has more than 2^32 - 1 steps, settings,
     * nodes, or bytes of names and texts. */
    HTML_RENDER_OUT_OF_MEMORY = 3,
    /* A step is faulty. */
    HTML_RENDER_BAD_STEP = 4,
    /* A setting is faulty: one of its numbers isn't in its enumeration, or a text isn't UTF-8. */
    HTML_RENDER_BAD_SETTING = 5,
    /* The decorator isn't one of html_render_decorator. */
    HTML_RENDER_BAD_DECORATOR = 6,
    /* A page has more nodes, or attributes that rendering reads, than `max_nodes` of the options says, by default 5
     * million. */
    HTML_RENDER_TOO_LARGE = 7,
    /* The options have a faulty size, a number that isn't in its enumeration, or a flag without a name; or a pointer is
     * NULL that may not be. */
    HTML_RENDER_BAD_ARGUMENT = 8,
    /* The Encoding standard has no such charset. */
    HTML_RENDER_BAD_CHARSET = 9,
    /* The address of the page isn't an absolute URL in UTF-8. */
    HTML_RENDER_BAD_BASE = 10,
    /* The style sheet has a rule without a block, or isn't UTF-8. */
    HTML_RENDER_BAD_CSS = 11,
    /* The library is at fault, and wrote where to standard error. */
    HTML_RENDER_INTERNAL_FAULT = 12
};

/* Namespace of a name, and for an element what a parser decided about it, joined by |. Other bits are ignored. */
enum html_render_element_flags {
    HTML_RENDER_NO_NAMESPACE = 0,
    HTML_RENDER_HTML = 1,
    HTML_RENDER_SVG = 2,
    HTML_RENDER_MATHML = 3,
    /* An HTML template, which has contents: see html_render_template_contents. */
    HTML_RENDER_TEMPLATE = 4,
    /* An HTML integration point: MathML's annotation-xml. */
    HTML_RENDER_INTEGRATION_POINT = 8
};

/* Quirks mode of a document. */
enum html_render_quirks_mode { HTML_RENDER_NO_QUIRKS = 0, HTML_RENDER_LIMITED_QUIRKS = 1, HTML_RENDER_QUIRKS = 2 };

/* Decorator of a rendering: it writes around the parts of a document, and annotates characters. */
enum html_render_decorator {
    /* Writes links and images in brackets. Annotates nothing. */
    HTML_RENDER_PLAIN = 0,
    /* Annotates links, images, emphasis, code, colours and more: see html_render_lines_of. */
    HTML_RENDER_RICH = 1
};

/* Calls of a configuration, for html_render_set, with the number that each takes. */
enum html_render_call {
    /* Turns overflow on: lines may pass the width, and from width 1 nothing is HTML_RENDER_TOO_NARROW. No number. */
    HTML_RENDER_ALLOW_WIDTH_OVERFLOW = 1,
    /* Adds rules of the agent: `*` around em and dt, `**` around strong and b, a backquote around code. No number. */
    HTML_RENDER_DO_DECORATE = 2,
    /* Sets whether links are numbered, and listed after the document: 0 no, any other number yes. Default no. */
    HTML_RENDER_LINK_FOOTNOTES = 3,
    /* Leaves lines of that list whole, so that they may pass the width. No number. */
    HTML_RENDER_NO_LINK_WRAPPING = 4,
    /* Sets whether U+0336 follows each struck-out character: 0 no, any other number yes. Default yes. */
    HTML_RENDER_UNICODE_STRIKEOUT = 5,
    /* Sets how images with an empty title are shown: an html_render_image_mode. */
    HTML_RENDER_EMPTY_IMG_MODE = 6,
    /* Pads lines of paragraphs with spaces to the width of their block. No number. */
    HTML_RENDER_PAD_BLOCK_WIDTH = 7,
    /* Limits lines of paragraphs, without prefixes: columns. Default no limit but the width. */
    HTML_RENDER_MAX_WRAP_WIDTH = 8,
    /* Sets the minimum left for a text after prefixes, unless the text has fewer: columns. Default 3. */
    HTML_RENDER_MIN_WRAP_WIDTH = 9,
    /* Sets whether the cells of each table are stacked: 0 no, any other number yes. Tables lose borders either way. */
    HTML_RENDER_RAW_MODE = 10,
    /* Draws tables without borders. No number. */
    HTML_RENDER_NO_TABLE_BORDERS = 11,
    /* Puts each table that isn't nested between lines of three backquotes. No number. */
    HTML_RENDER_FENCE_TABLES = 12,
    /* Adds a style rule. It takes more than a number: use html_render_add_rule. */
    HTML_RENDER_ADD_STYLE_RULE = 13,
    /* Gives columns side by side the width of their longest words, as far as the width allows. No number. */
    HTML_RENDER_WHOLE_WORDS = 14
};

/* Treatment of images and drawings with an empty title. */
enum html_render_image_mode {
    /* Shows nothing. The default. */
    HTML_RENDER_IMAGE_IGNORE_EMPTY = 0,
    /* Shows the image with its empty title. */
    HTML_RENDER_IMAGE_SHOW_ALWAYS = 1,
    /* Shows the image with the text of the call as its title. */
    HTML_RENDER_IMAGE_REPLACE = 2,
    /* Shows the image with the part of its source after the last `/` as its title; nothing if that part is empty. */
    HTML_RENDER_IMAGE_FILENAME = 3
};

/* Property that a style rule declares. */
enum html_render_property {
    /* `color` and `background-color`; annotations of HTML_RENDER_RICH. */
    HTML_RENDER_COLOUR = 0,
    HTML_RENDER_BACKGROUND = 1,
    /* `display: none`. */
    HTML_RENDER_DISPLAY_NONE = 2,
    /* `white-space`. */
    HTML_RENDER_WHITE_SPACE = 3,
    /* `content`, shown if the rule's place isn't the element. */
    HTML_RENDER_CONTENT = 4
};

/* Value of the property `white-space`. */
enum html_render_white_space {
    /* Collapses white space, and wraps lines between words. */
    HTML_RENDER_WHITE_SPACE_NORMAL = 0,
    /* Preserves white space, and wraps lines only where a character doesn't fit. */
    HTML_RENDER_WHITE_SPACE_PRE = 1,
    /* Preserves white space, and wraps lines between words. */
    HTML_RENDER_WHITE_SPACE_PRE_WRAP = 2
};

/* Origin of a style rule (CSS Cascading and Inheritance Level 3, section 6). The greatest number wins among normal
 * declarations, and the smallest one among important declarations. */
enum html_render_origin {
    HTML_RENDER_ORIGIN_NONE = 0,
    HTML_RENDER_ORIGIN_AGENT = 1, /* user agent */
    HTML_RENDER_ORIGIN_USER = 2,
    HTML_RENDER_ORIGIN_AUTHOR = 3 /* author of the document */
};

/* Place that a style rule is for: the element itself, or its pseudo-element before or after its contents (Selectors
 * Level 3, section 7). Of the properties of a pseudo-element only HTML_RENDER_CONTENT counts. */
enum html_render_place { HTML_RENDER_PLACE_ELEMENT = 0, HTML_RENDER_PLACE_BEFORE = 8, HTML_RENDER_PLACE_AFTER = 16 };

/* A style rule of one declaration. It selects the elements that have its name, its id and its classes, as far as these
 * aren't NULL. Texts end with a zero byte. */
struct html_render_rule {
    /* Local name, in any namespace; NULL for any element. */
    const char *element;
    /* Value of the attribute `id`, or NULL. */
    const char *id;
    /* Words of the attribute `class`, separated by ASCII white space, or NULL. */
    const char *classes;
    /* Value of HTML_RENDER_CONTENT, NULL if empty. Ignored for other properties. */
    const char *content;
    enum html_render_property declares;
    /* Value of a colour, 0xRRGGBB, or of HTML_RENDER_WHITE_SPACE, an html_render_white_space. Otherwise ignored. */
    uint32_t value;
    enum html_render_origin origin;
    /* Whether the declaration is important: 0 no, any other number yes. */
    int important;
    enum html_render_place place;
};

/* A recording: a document and the settings of a configuration. */
typedef struct html_render_recording html_render_recording;

/* Number of a node: 0 is the document, and each step that makes a node returns the next number, from 1. */
typedef uint32_t html_render_node;

/* Returns an empty recording, to be freed with html_render_drop; NULL if memory is out. */
html_render_recording *html_render_new(void);

/* Frees a recording. Does nothing for NULL. */
void html_render_drop(html_render_recording *recording);

/* Makes an element without attributes and without a parent. `flags` are html_render_element_flags. */
html_render_node html_render_element(html_render_recording *recording, uint32_t flags, const char *name,
                                     size_t length);

/* Makes a comment without a parent. */
html_render_node html_render_comment(html_render_recording *recording, const char *text, size_t length);

/* Makes a processing instruction without a parent. */
html_render_node html_render_instruction(html_render_recording *recording, const char *target, size_t target_length,
                                         const char *text, size_t length);

/* Gives the contents of a template a number, so that nodes can be appended to them. Requires that `element` was made
 * with HTML_RENDER_TEMPLATE. */
html_render_node html_render_template_contents(html_render_recording *recording, html_render_node element);

/* Gives an element an attribute, unless it has one of this namespace and name; all of its attributes are compared.
 * `name_space` is a namespace of html_render_element_flags. Requires that `element` is an element. */
void html_render_attribute(html_render_recording *recording, html_render_node element, uint32_t name_space,
                           const char *name, size_t name_length, const char *value, size_t length);

/* Appends a node to the children of another. Requires that `child` has no parent, and isn't `parent` or an ancestor of
 * it. */
void html_render_append(html_render_recording *recording, html_render_node parent, html_render_node child);

/* Appends a text to the children of a node. It joins the last child if that is a text. */
void html_render_append_text(html_render_recording *recording, html_render_node parent, const char *text,
                             size_t length);

/* Removes `child` from its parent, if it has one, and inserts it directly before `sibling`. Requires that `sibling`
 * has a parent, and that `child` isn't `sibling` or an ancestor of it. */
void html_render_append_before_sibling(html_render_recording *recording, html_render_node sibling,
                                       html_render_node child);

/* Inserts a text directly before `sibling`. It joins a text directly before that. Requires that `sibling` has a
 * parent. */
void html_render_append_text_before_sibling(html_render_recording *recording, html_render_node sibling,
                                            const char *text, size_t length);

/* Inserts `child` before `element` if that has a parent, and otherwise appends it to `other`. Requires what
 * html_render_append_before_sibling or html_render_append does. */
void html_render_append_based_on_parent_node(html_render_recording *recording, html_render_node element,
                                             html_render_node other, html_render_node child);

/* Inserts a text before `element` if that has a parent, and otherwise appends it to `other`. */
void html_render_append_text_based_on_parent_node(html_render_recording *recording, html_render_node element,
                                                  html_render_node other, const char *text, size_t length);

/* Removes a node from its parent, if it has one. */
void html_render_remove_from_parent(html_render_recording *recording, html_render_node node);

/* Appends all children of `node` to those of `new_parent`. Requires that `node` isn't `new_parent` or an ancestor of
 * it. */
void html_render_reparent_children(html_render_recording *recording, html_render_node node,
                                   html_render_node new_parent);

/* Appends a doctype to the document. It shows nothing. */
void html_render_doctype(html_render_recording *recording, const char *name, size_t name_length, const char *public_id,
                         size_t length);

/* Sets the quirks mode that a parser decided on. It changes no text. */
void html_render_quirks(html_render_recording *recording, enum html_render_quirks_mode mode);

/* Calls the configuration, which begins without rules, overflow and footnotes. `number` is the one that `call` takes,
 * and is ignored if that takes none. `text` is the title of HTML_RENDER_IMAGE_REPLACE, which ends with a zero byte,
 * and NULL otherwise. */
void html_render_set(html_render_recording *recording, enum html_render_call call, uint32_t number, const char *text);

/* Adds a rule after the others of the configuration, with copies of its texts. `rule` isn't NULL. */
void html_render_add_rule(html_render_recording *recording, const struct html_render_rule *rule);

/* Renders the document as a text in UTF-8, wrapped to `width` columns. Leaves the recording as it is, so that it can
 * be rendered again, and more can be recorded.
 *
 * HTML_RENDER_OK sets `text` to the text, which ends with a zero byte, and `length` to its length in bytes without the
 * zero. The caller frees the text with html_render_free.
 *
 * HTML_RENDER_BAD_STEP and HTML_RENDER_BAD_SETTING set `text` to NULL, and `length` to the number of the first faulty
 * step or setting. Any other status sets `text` to NULL, and `length` to 0. */
enum html_render_status html_render_text_of(const html_render_recording *recording,
                                            enum html_render_decorator decorator, size_t width, char **text,
                                            size_t *length);

/* Renders the document as lines of tagged strings, wrapped to `width` columns. Sets `records` to the records of the
 * lines, which end with a zero byte, and `length` to their length in bytes without the zero; otherwise like
 * html_render_text_of.
 *
 * A record is a letter and its fields. A number has 4 bytes, the lowest first, and stops at 2^32 - 1.
 *
 *   L   start of a line
 *   S   string: number of its annotations, the annotations, length of its text, the text
 *   F   start of the part of the document with an id: length of the id, the id
 *
 * An annotation is a letter and its fields. HTML_RENDER_PLAIN annotates with `d` alone.
 *
 *   d            default
 *   l i          link, image: length of the target or source, the target or source
 *   e b s c      emphasis, strong text, struck-out text, code
 *   p q          preformatted text, and on a continuation line
 *   f g          colour, background: three bytes for red, green and blue
 */
enum html_render_status html_render_lines_of(const html_render_recording *recording,
                                             enum html_render_decorator decorator, size_t width, char **records,
                                             size_t *length);

/* Signs and annotations of a page's text. */
enum html_render_style {
    /* Writes signs around emphasis, strong text and code, and numbers links. Annotates nothing. */
    HTML_RENDER_STYLE_PLAIN = 0,
    /* Annotates links, images, emphasis, code, colours and more, and writes no signs for them. */
    HTML_RENDER_STYLE_RICH = 1,
    /* Neither writes signs nor annotates. */
    HTML_RENDER_STYLE_BARE = 2
};

/* Targets of links. Equal targets have one number. HTML_RENDER_STYLE_RICH annotates them, whatever is asked here. */
enum html_render_links {
    /* HTML_RENDER_LINKS_NOTES for HTML_RENDER_STYLE_PLAIN, and otherwise HTML_RENDER_LINKS_NONE. */
    HTML_RENDER_LINKS_BY_STYLE = 0,
    /* Writes a number after each link, and the targets after the text. */
    HTML_RENDER_LINKS_NOTES = 1,
    /* Writes the target after each link. */
    HTML_RENDER_LINKS_INLINE = 2,
    /* Writes the targets after the text, without numbers. */
    HTML_RENDER_LINKS_LIST = 3,
    /* Writes no target. */
    HTML_RENDER_LINKS_NONE = 4
};

/* Tables that are drawn with their cells side by side. The others are shown as the blocks and lines in their cells. */
enum html_render_tables {
    /* Tables of data: with heads, a caption, a summary or a border, or two rows of several cells. */
    HTML_RENDER_TABLES_DATA = 0,
    HTML_RENDER_TABLES_ALL = 1,
    HTML_RENDER_TABLES_NONE = 2
};

/* Flags of a page, joined by |. */
enum html_render_page_flags {
    /* Shows the page's title above its text. */
    HTML_RENDER_FLAG_TITLE = 1,
    /* Applies the rules of the page's own style sheets. */
    HTML_RENDER_FLAG_PAGE_CSS = 2,
    /* Keeps control characters, with which a page can control a terminal. */
    HTML_RENDER_FLAG_KEEP_CONTROLS = 4,
    /* Cuts targets after the text at the width. Without it they may pass the width. */
    HTML_RENDER_FLAG_WRAP_LINKS = 8,
    /* Cuts lines of preformatted text at the width. Without it they may pass the width. */
    HTML_RENDER_FLAG_WRAP_CODE = 16,
    /* Draws a line under each row of a table. Without it there is none between most short rows. */
    HTML_RENDER_FLAG_ROW_RULES = 32,
    /* Stacks the cells of every table, without borders. */
    HTML_RENDER_FLAG_RAW_TABLES = 64,
    /* Cuts words in columns sooner. Without it columns have the width of their longest words, as far as possible. */
    HTML_RENDER_FLAG_CUT_WORDS = 128,
    /* Draws tables without borders. */
    HTML_RENDER_FLAG_NO_BORDERS = 256,
    /* Puts each table that isn't nested between lines of three backquotes. */
    HTML_RENDER_FLAG_FENCE_TABLES = 512,
    /* Pads lines with spaces. Without it no line ends with one. */
    HTML_RENDER_FLAG_PAD = 1024,
    /* Refuses a character or a prefix that is wider than its line. Without it such a line passes the width. */
    HTML_RENDER_FLAG_NARROW = 2048
};

/* Options of a page of HTML. A field that is 0 or NULL is as if it wasn't there, so that the options
 * `{sizeof(struct html_render_options)}` change nothing. Texts are UTF-8, and end with a zero byte.
 *
 * Later versions may add fields at the end. A library takes the options of earlier versions, and those of later ones
 * if what it doesn't know of them is 0, up to 4,096 bytes. */
struct html_render_options {
    /* Size of the options in bytes, as far as the caller's version has fields. */
    size_t size;
    /* Maximum columns of the lines of paragraphs, without prefixes. */
    size_t max_width;
    /* Encoding of the page, as HTTP or a mail names it. Only a byte order mark counts more. Without it the encoding is
     * what the page's first 1,024 bytes declare, or UTF-8 if all of its bytes are, or else windows-1252. */
    const char *charset;
    /* Address of the page: an absolute URL, against which targets of links are resolved. */
    const char *base;
    /* The user's style sheet: rules that select by an element's name, an id and classes. Others are ignored. */
    const char *css;
    /* Text of images under HTML_RENDER_IMAGE_REPLACE. */
    const char *image_title;
    enum html_render_style style;
    enum html_render_links links;
    enum html_render_tables tables;
    /* Treatment of images without a text. */
    enum html_render_image_mode images;
    /* html_render_page_flags. */
    uint64_t flags;
    /* Maximum number of the page's nodes, and of its attributes that rendering reads; 0 for 5 million. The document,
     * html, head and body, which each page has, count. A number above 2^31 counts as 2^31. */
    size_t max_nodes;
};

/* Renders a page of HTML as a text in UTF-8, as a browser shows the page, wrapped to `width` columns. `html` has
 * `length` bytes in any encoding, and may be NULL if there are none. `options` may be NULL.
 *
 * HTML_RENDER_OK sets `text` to the text, which ends with a zero byte, and `text_length` to its length in bytes without
 * the zero. The caller frees the text with html_render_free. Any other status sets `text` to NULL, and `text_length` to
 * 0; if one of these pointers is NULL itself, nothing is set, and the status is HTML_RENDER_BAD_ARGUMENT.
 *
 * The limits on depth, attributes and nodes hold for every page: 512 open elements, and 5 million nodes or
 * `max_nodes`. A node takes up to 1.3 kB, and each byte of the text 4 to 10 bytes. So 5 million `hr` with an id, 45 MB
 * of HTML, take 6.2 GB at 80 columns. Prefixes of lists and quotes in each other are text too: in 250 lists with long
 * numbers they have 3,250 bytes on each line. The worst page that is known, of paragraphs in such lists, takes 5.7 kB
 * for each of its bytes and 12 kB for a node, which is 60 GB for 5 million nodes.
 *
 * If memory is out in a part of the library that is written in Rust, such as the parser, the program is aborted. If it
 * is out in the proved part, the status is HTML_RENDER_OUT_OF_MEMORY. A program that mustn't be aborted has another
 * process render the pages that it doesn't trust, or sets `max_nodes`: with 100,000 the worst page takes 1.2 GB. */
enum html_render_status html_render_html(const char *html, size_t length, size_t width,
                                         const struct html_render_options *options, char **text,
                                         size_t *text_length);

/* Renders a page of HTML as html_render_html does, as the records of lines that html_render_lines_of describes.
 * HTML_RENDER_STYLE_RICH annotates as HTML_RENDER_RICH does, and the other styles as HTML_RENDER_PLAIN. */
enum html_render_status html_render_html_lines(const char *html, size_t length, size_t width,
                                               const struct html_render_options *options, char **records,
                                               size_t *records_length);

/* Frees the text or the records of a call that renders. Does nothing for NULL. */
void html_render_free(void *given);

#ifdef __cplusplus
}
#endif

#endif
