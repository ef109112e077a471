/* Records documents and settings for the library's two calls. */
#include "html_render.h"
#include "steps.h"

#include <stdlib.h>
#include <string.h>

/* These compile only if the enumerations of a rule have 4 bytes, as they do in bindings of other languages. */
typedef char properties_have_4_bytes[sizeof(enum html_render_property) == 4 ? 1 : -1];
typedef char origins_have_4_bytes[sizeof(enum html_render_origin) == 4 ? 1 : -1];
typedef char places_have_4_bytes[sizeof(enum html_render_place) == 4 ? 1 : -1];
typedef char styles_have_4_bytes[sizeof(enum html_render_style) == 4 ? 1 : -1];
typedef char links_have_4_bytes[sizeof(enum html_render_links) == 4 ? 1 : -1];
typedef char tables_have_4_bytes[sizeof(enum html_render_tables) == 4 ? 1 : -1];
typedef char images_have_4_bytes[sizeof(enum html_render_image_mode) == 4 ? 1 : -1];

const char *html_render_version(void) {
    return HTML_RENDER_VERSION;
}

struct html_render_recording {
    struct html_render_step *steps;
    size_t step_count, step_room;
    struct html_render_setting *settings;
    size_t setting_count, setting_room;
    uint8_t *text;
    size_t text_length, text_room;
    html_render_node made; /* number of nodes made */
    int is_lost;           /* whether memory was out */
};

/* A piece of the text: start and length in bytes. */
struct piece {
    uint32_t start, length;
};

html_render_recording *html_render_new(void) {
    return calloc(1, sizeof(html_render_recording));
}

void html_render_drop(html_render_recording *recording) {
    if (recording) {
        free(recording->steps);
        free(recording->settings);
        free(recording->text);
        free(recording);
    }
}

/* Returns an array with room for `more` items after `count`; NULL if memory is out, which leaves it as it is. */
static void *with_room(void *items, size_t size, size_t count, size_t *room, size_t more) {
    size_t wanted = *room < 32 ? 64 : *room * 2;
    void *grown;
    if (*room - count >= more)
        return items;
    if (more > UINT32_MAX - count)
        return NULL;
    if (wanted < count + more)
        wanted = count + more;
    grown = realloc(items, wanted * size);
    if (grown)
        *room = wanted;
    return grown;
}

/* Appends a copy of a text to the text of the recording. Returns the piece. */
static struct piece keep(html_render_recording *r, const char *text, size_t length) {
    struct piece none = {0, 0}, kept;
    uint8_t *grown;
    if (length == 0)
        return none;
    grown = with_room(r->text, 1, r->text_length, &r->text_room, length);
    if (!grown) {
        r->is_lost = 1;
        return none;
    }
    r->text = grown;
    memcpy(r->text + r->text_length, text, length);
    kept.start = (uint32_t)r->text_length;
    kept.length = (uint32_t)length;
    r->text_length += length;
    return kept;
}

/* Keeps a text that ends with a zero byte; an empty one for NULL. */
static struct piece keep_word(html_render_recording *r, const char *text) {
    return keep(r, text, text ? strlen(text) : 0);
}

/* Appends a step. */
static void put(html_render_recording *r, struct html_render_step step) {
    struct html_render_step *grown = with_room(r->steps, sizeof step, r->step_count, &r->step_room, 1);
    if (!grown) {
        r->is_lost = 1;
        return;
    }
    r->steps = grown;
    r->steps[r->step_count++] = step;
}

/* Appends a step that makes a node. Returns the node's number. */
static html_render_node make(html_render_recording *r, struct html_render_step step) {
    put(r, step);
    if (r->made == UINT32_MAX)
        r->is_lost = 1;
    else
        r->made++;
    return r->made;
}

/* Returns a step of a kind, without names and texts. */
static struct html_render_step about(enum html_render_step_kind kind, html_render_node node) {
    struct html_render_step step = {0};
    step.kind = kind;
    step.node = node;
    return step;
}

/* Returns a step with a copy of a name. */
static struct html_render_step with_name(html_render_recording *r, struct html_render_step step, const char *name,
                                         size_t length) {
    struct piece piece = keep(r, name, length);
    step.name = piece.start;
    step.name_length = piece.length;
    return step;
}

/* Returns a step with a copy of a text. */
static struct html_render_step with_value(html_render_recording *r, struct html_render_step step, const char *value,
                                          size_t length) {
    struct piece piece = keep(r, value, length);
    step.value = piece.start;
    step.value_length = piece.length;
    return step;
}

html_render_node html_render_element(html_render_recording *r, uint32_t flags, const char *name, size_t length) {
    struct html_render_step step = with_name(r, about(HTML_RENDER_STEP_MAKE_ELEMENT, 0), name, length);
    step.flags = flags;
    return make(r, step);
}

html_render_node html_render_comment(html_render_recording *r, const char *text, size_t length) {
    return make(r, with_value(r, about(HTML_RENDER_STEP_MAKE_COMMENT, 0), text, length));
}

html_render_node html_render_instruction(html_render_recording *r, const char *target, size_t target_length,
                                         const char *text, size_t length) {
    return make(r, with_value(r, with_name(r, about(HTML_RENDER_STEP_MAKE_INSTRUCTION, 0), target, target_length),
                              text, length));
}

html_render_node html_render_template_contents(html_render_recording *r, html_render_node element) {
    return make(r, about(HTML_RENDER_STEP_TEMPLATE_CONTENTS, element));
}

void html_render_attribute(html_render_recording *r, html_render_node element, uint32_t name_space, const char *name,
                           size_t name_length, const char *value, size_t length) {
    struct html_render_step step =
        with_value(r, with_name(r, about(HTML_RENDER_STEP_ADD_ATTRIBUTE, element), name, name_length), value, length);
    step.flags = name_space;
    put(r, step);
}

void html_render_append(html_render_recording *r, html_render_node parent, html_render_node child) {
    struct html_render_step step = about(HTML_RENDER_STEP_PUT_NODE, parent);
    step.child = child;
    put(r, step);
}

void html_render_append_text(html_render_recording *r, html_render_node parent, const char *text, size_t length) {
    put(r, with_value(r, about(HTML_RENDER_STEP_PUT_TEXT, parent), text, length));
}

void html_render_append_before_sibling(html_render_recording *r, html_render_node sibling, html_render_node child) {
    struct html_render_step step = about(HTML_RENDER_STEP_PUT_NODE_BEFORE, sibling);
    step.child = child;
    put(r, step);
}

void html_render_append_text_before_sibling(html_render_recording *r, html_render_node sibling, const char *text,
                                            size_t length) {
    put(r, with_value(r, about(HTML_RENDER_STEP_PUT_TEXT_BEFORE, sibling), text, length));
}

void html_render_append_based_on_parent_node(html_render_recording *r, html_render_node element,
                                             html_render_node other, html_render_node child) {
    struct html_render_step step = about(HTML_RENDER_STEP_PUT_NODE_BY_PARENT, element);
    step.other = other;
    step.child = child;
    put(r, step);
}

void html_render_append_text_based_on_parent_node(html_render_recording *r, html_render_node element,
                                                  html_render_node other, const char *text, size_t length) {
    struct html_render_step step = with_value(r, about(HTML_RENDER_STEP_PUT_TEXT_BY_PARENT, element), text, length);
    step.other = other;
    put(r, step);
}

void html_render_remove_from_parent(html_render_recording *r, html_render_node node) {
    put(r, about(HTML_RENDER_STEP_REMOVE, node));
}

void html_render_reparent_children(html_render_recording *r, html_render_node node, html_render_node new_parent) {
    struct html_render_step step = about(HTML_RENDER_STEP_REPARENT, node);
    step.other = new_parent;
    put(r, step);
}

void html_render_doctype(html_render_recording *r, const char *name, size_t name_length, const char *public_id,
                         size_t length) {
    put(r, with_value(r, with_name(r, about(HTML_RENDER_STEP_PUT_DOCTYPE, 0), name, name_length), public_id, length));
}

void html_render_quirks(html_render_recording *r, enum html_render_quirks_mode mode) {
    struct html_render_step step = about(HTML_RENDER_STEP_SET_QUIRKS, 0);
    step.flags = mode;
    put(r, step);
}

/* Appends a setting. */
static void add_setting(html_render_recording *r, struct html_render_setting setting) {
    struct html_render_setting *grown = with_room(r->settings, sizeof setting, r->setting_count, &r->setting_room, 1);
    if (!grown) {
        r->is_lost = 1;
        return;
    }
    r->settings = grown;
    r->settings[r->setting_count++] = setting;
}

void html_render_set(html_render_recording *r, enum html_render_call call, uint32_t number, const char *text) {
    struct html_render_setting setting = {0};
    struct piece piece = keep_word(r, text);
    setting.kind = call;
    setting.number = number;
    setting.text = piece.start;
    setting.text_length = piece.length;
    add_setting(r, setting);
}

/* Whether the origin and the place of a rule are of their enumerations. */
static int has_origin_and_place(const struct html_render_rule *rule) {
    return (uint32_t)rule->origin <= HTML_RENDER_ORIGIN_AUTHOR &&
           (rule->place == HTML_RENDER_PLACE_ELEMENT || rule->place == HTML_RENDER_PLACE_BEFORE ||
            rule->place == HTML_RENDER_PLACE_AFTER);
}

/* Returns the flags of a rule. */
static uint32_t flags_of(const struct html_render_rule *rule) {
    uint32_t flags = (uint32_t)rule->origin | (uint32_t)rule->place;
    if (rule->important)
        flags |= HTML_RENDER_RULE_IMPORTANT;
    if (rule->element)
        flags |= HTML_RENDER_RULE_HAS_ELEMENT;
    if (rule->id)
        flags |= HTML_RENDER_RULE_HAS_ID;
    return flags;
}

void html_render_add_rule(html_render_recording *r, const struct html_render_rule *rule) {
    struct html_render_setting setting = {0};
    struct piece content = keep_word(r, rule->content), element = keep_word(r, rule->element);
    struct piece id = keep_word(r, rule->id), classes = keep_word(r, rule->classes);
    /* kind 0 is no call, so that the setting is faulty */
    setting.kind = has_origin_and_place(rule) ? HTML_RENDER_ADD_STYLE_RULE : 0;
    setting.number = rule->declares;
    setting.value = rule->value;
    setting.flags = flags_of(rule);
    setting.text = content.start;
    setting.text_length = content.length;
    setting.element = element.start;
    setting.element_length = element.length;
    setting.id = id.start;
    setting.id_length = id.length;
    setting.classes = classes.start;
    setting.classes_length = classes.length;
    add_setting(r, setting);
}

/* One of the library's two calls. */
typedef uint32_t render(const struct html_render_step *, size_t, const uint8_t *, size_t,
                        const struct html_render_setting *, size_t, uint32_t, size_t, uint8_t **, size_t *);

/* Renders a recording by a call. */
static enum html_render_status rendered(render *by, const html_render_recording *r, uint32_t decorator, size_t width,
                                        char **given, size_t *length) {
    static const struct html_render_step no_step;
    static const struct html_render_setting no_setting;
    static const uint8_t no_text;
    uint8_t *out = NULL;
    uint32_t status;
    *given = NULL;
    *length = 0;
    if (r->is_lost)
        return HTML_RENDER_OUT_OF_MEMORY;
    /* a pointer to no items isn't NULL either */
    status = by(r->step_count ? r->steps : &no_step, r->step_count, r->text_length ? r->text : &no_text,
                r->text_length, r->setting_count ? r->settings : &no_setting, r->setting_count, decorator, width,
                &out, length);
    if (status == HTML_RENDER_OK)
        *given = (char *)out;
    return (enum html_render_status)status;
}

enum html_render_status html_render_text_of(const html_render_recording *r, enum html_render_decorator decorator,
                                            size_t width, char **text, size_t *length) {
    return rendered(html_render_text, r, decorator, width, text, length);
}

enum html_render_status html_render_lines_of(const html_render_recording *r, enum html_render_decorator decorator,
                                             size_t width, char **records, size_t *length) {
    return rendered(html_render_lines, r, decorator, width, records, length);
}

void html_render_free(void *given) {
    free(given);
}
