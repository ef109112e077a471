/* Records of steps and settings, and the library's two calls, which take them. html_render.h records such steps and
 * settings; a binding of another language may do so itself. `Step` of crates/html_render_dom and `Setting` of
 * crates/html_render_tree_records have the same fields, and their numbers are the ones here.
 *
 * The library tests every number. Nothing checks the pointers: the caller ensures that none is NULL, also one to no
 * items, that each leads to the number of items beside it, and that nothing changes these during the call. */
#ifndef HTML_RENDER_STEPS_H
#define HTML_RENDER_STEPS_H

#include "html_render.h"

#include <stddef.h>
#include <stdint.h>

#ifdef __cplusplus
extern "C" {
#endif

/* Kind of a step. Each is a call of html_render.h, and uses the fields beside it. */
enum html_render_step_kind {
    HTML_RENDER_STEP_MAKE_ELEMENT = 1,        /* html_render_element: flags, name */
    HTML_RENDER_STEP_MAKE_COMMENT = 2,        /* html_render_comment: value */
    HTML_RENDER_STEP_MAKE_INSTRUCTION = 3,    /* html_render_instruction: name, value */
    HTML_RENDER_STEP_ADD_ATTRIBUTE = 4,       /* html_render_attribute: node, flags, name, value */
    HTML_RENDER_STEP_PUT_NODE = 5,            /* html_render_append: node, child */
    HTML_RENDER_STEP_PUT_TEXT = 6,            /* html_render_append_text: node, value */
    HTML_RENDER_STEP_PUT_NODE_BEFORE = 7,     /* html_render_append_before_sibling: node, child */
    HTML_RENDER_STEP_PUT_TEXT_BEFORE = 8,     /* html_render_append_text_before_sibling: node, value */
    HTML_RENDER_STEP_PUT_NODE_BY_PARENT = 9,  /* html_render_append_based_on_parent_node: node, other, child */
    HTML_RENDER_STEP_PUT_TEXT_BY_PARENT = 10, /* html_render_append_text_based_on_parent_node: node, other, value */
    HTML_RENDER_STEP_REMOVE = 11,             /* html_render_remove_from_parent: node */
    HTML_RENDER_STEP_REPARENT = 12,           /* html_render_reparent_children: node, other */
    HTML_RENDER_STEP_TEMPLATE_CONTENTS = 13,  /* html_render_template_contents: node */
    HTML_RENDER_STEP_PUT_DOCTYPE = 14,        /* html_render_doctype: name, value */
    HTML_RENDER_STEP_SET_QUIRKS = 15,         /* html_render_quirks: flags */
    HTML_RENDER_STEP_APPEND_ELEMENT = 16      /* html_render_element and html_render_append: node, flags, name */
};

/* A step. Names and texts are pieces of one text, given by their start and length in bytes. */
struct html_render_step {
    uint32_t kind;                /* an html_render_step_kind */
    uint32_t flags;               /* html_render_element_flags, or an html_render_quirks_mode */
    uint32_t node;                /* parent, sibling or element: an html_render_node */
    uint32_t other;               /* parent if `node` has none, or new parent */
    uint32_t child;               /* node that is inserted */
    uint32_t name, name_length;   /* name of an element, attribute or doctype; target */
    uint32_t value, value_length; /* text, value of an attribute, or public identifier */
};

/* Flags of a setting that is a rule, joined by | with its html_render_origin and html_render_place. */
enum html_render_rule_flags {
    HTML_RENDER_RULE_IMPORTANT = 4,
    /* The rule states an element's name, or an id. */
    HTML_RENDER_RULE_HAS_ELEMENT = 32,
    HTML_RENDER_RULE_HAS_ID = 64
};

/* A setting. Texts are pieces of one text, given by their start and length in bytes. Fields after `number` are of
 * rules, but for `text`, which is also the title of HTML_RENDER_IMAGE_REPLACE. */
struct html_render_setting {
    uint32_t kind;              /* an html_render_call */
    uint32_t number;            /* what the call takes; of a rule an html_render_property */
    uint32_t value;             /* 0xRRGGBB of a colour, or an html_render_white_space */
    uint32_t flags;             /* html_render_rule_flags, an html_render_origin and an html_render_place */
    uint32_t text, text_length; /* content, or a title */
    uint32_t element, element_length;
    uint32_t id, id_length;
    uint32_t classes, classes_length; /* classes, separated by ASCII white space */
};

/* Renders the document that steps build as a text in UTF-8, wrapped to `width` columns. `decorator` is an
 * html_render_decorator. Returns an html_render_status.
 *
 * HTML_RENDER_OK sets `out` to the text, which ends with a zero byte, and `length` to its length in bytes without the
 * zero. The caller frees the text with html_render_free.
 *
 * HTML_RENDER_BAD_STEP and HTML_RENDER_BAD_SETTING set `length` to the number of the first faulty step or setting,
 * from 0. Any other status sets `length` to 0. Only HTML_RENDER_OK changes `out`. */
uint32_t html_render_text(const struct html_render_step *steps, size_t step_count, const uint8_t *text,
                          size_t text_length, const struct html_render_setting *settings, size_t setting_count,
                          uint32_t decorator, size_t width, uint8_t **out, size_t *length);

/* Renders the document as html_render_text does, as the records of lines that html_render_lines_of describes. */
uint32_t html_render_lines(const struct html_render_step *steps, size_t step_count, const uint8_t *text,
                           size_t text_length, const struct html_render_setting *settings, size_t setting_count,
                           uint32_t decorator, size_t width, uint8_t **out, size_t *length);

#ifdef __cplusplus
}
#endif

#endif
