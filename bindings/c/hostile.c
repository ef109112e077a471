/* Gives the library what a hostile page could: a document 100,000 deep, a text of a billion bytes that isn't there,
 * and settings whose texts leave the buffer. Checks which of several faults a call reports. Refuses each growth of
 * memory in turn while a page is recorded and rendered, and checks that no block is lost.
 *
 * It is linked with --wrap for malloc, calloc, realloc, aligned_alloc, posix_memalign and free. */
#include "html_render.h"
#include "steps.h"

#include <stdio.h>
#include <stdlib.h>
#include <string.h>

void *__real_malloc(size_t size);
void *__real_calloc(size_t items, size_t size);
void *__real_realloc(void *block, size_t size);
void *__real_aligned_alloc(size_t to, size_t size);
int __real_posix_memalign(void **block, size_t to, size_t size);
void __real_free(void *block);

/* number of the first growth that is refused, from 1; 0 for none */
static long refused_from;
/* number of growths refused, two or all: a list asks again at once for exactly what it needs */
static long refused_many;
static long growths, blocks;

static int is_refused(void) {
    growths++;
    return refused_from && growths >= refused_from && growths - refused_from < refused_many;
}

static void *counted(void *block) {
    blocks += block != NULL;
    return block;
}

void *__wrap_malloc(size_t size) {
    return is_refused() ? NULL : counted(__real_malloc(size));
}

void *__wrap_calloc(size_t items, size_t size) {
    return is_refused() ? NULL : counted(__real_calloc(items, size));
}

void *__wrap_realloc(void *block, size_t size) {
    if (is_refused())
        return NULL;
    return block ? __real_realloc(block, size) : counted(__real_realloc(block, size));
}

void *__wrap_aligned_alloc(size_t to, size_t size) {
    return is_refused() ? NULL : counted(__real_aligned_alloc(to, size));
}

int __wrap_posix_memalign(void **block, size_t to, size_t size) {
    int status = is_refused() ? 12 : __real_posix_memalign(block, to, size);
    blocks += status == 0;
    return status;
}

void __wrap_free(void *block) {
    blocks -= block != NULL;
    __real_free(block);
}

static int failed;

static void expect(int is_so, const char *what) {
    if (!is_so) {
        printf("hostile: %s\n", what);
        failed = 1;
    }
}

static html_render_node element(html_render_recording *page, html_render_node parent, const char *name) {
    html_render_node made = html_render_element(page, HTML_RENDER_HTML, name, strlen(name));
    html_render_append(page, parent, made);
    return made;
}

static void deep(void) {
    html_render_recording *page = html_render_new();
    html_render_node node = 0;
    enum html_render_status status;
    char *text = NULL;
    size_t length;
    int i;
    for (i = 0; i < 100000; i++)
        node = element(page, node, "div");
    html_render_append_text(page, node, "x", 1);
    status = html_render_text_of(page, HTML_RENDER_PLAIN, 80, &text, &length);
    expect(status == HTML_RENDER_OK && !strcmp(text, "x\n"), "a deep document isn't rendered");
    html_render_free(text);
    html_render_drop(page);
}

static void billion(void) {
    const struct html_render_setting none = {0};
    struct html_render_step step = {0};
    const uint8_t text[1] = {0};
    uint8_t *out = NULL;
    size_t length = 0;
    uint32_t status;
    step.kind = HTML_RENDER_STEP_PUT_TEXT;
    step.value_length = 1000000000;
    status = html_render_text(&step, 1, text, 1, &none, 0, HTML_RENDER_PLAIN, 80, &out, &length);
    expect(status == HTML_RENDER_BAD_STEP && !out && length == 0, "a text that isn't there is taken");
}

/* Steps and settings over the text "ab\xC3\xA9", whose last two bytes are one character. */
struct given {
    struct html_render_step steps[2];
    struct html_render_setting settings[2];
    size_t step_count, setting_count, width;
    uint32_t decorator;
};

/* Returns the steps of an HTML element "a" with the text "ab", in 80 columns. */
static struct given paragraph(void) {
    struct given g = {0};
    g.steps[0].kind = HTML_RENDER_STEP_APPEND_ELEMENT;
    g.steps[0].flags = HTML_RENDER_HTML;
    g.steps[0].name_length = 1;
    g.steps[1].kind = HTML_RENDER_STEP_PUT_TEXT;
    g.steps[1].node = 1;
    g.steps[1].value_length = 2;
    g.step_count = 2;
    g.width = 80;
    return g;
}

/* One of the library's two calls. */
typedef uint32_t render(const struct html_render_step *, size_t, const uint8_t *, size_t,
                        const struct html_render_setting *, size_t, uint32_t, size_t, uint8_t **, size_t *);

/* Expects a status of a call, and a size unless that is 0. */
static void expect_status(render *by, const struct given *g, enum html_render_status status, size_t size,
                          const char *what) {
    static const uint8_t text[4] = {'a', 'b', 0xC3, 0xA9};
    uint8_t *out = NULL;
    size_t length = 77;
    uint32_t was = by(g->steps, g->step_count, text, sizeof text, g->settings, g->setting_count, g->decorator,
                      g->width, &out, &length);
    expect(was == status && (out != NULL) == (status == HTML_RENDER_OK), what);
    expect(status == HTML_RENDER_OK || length == size, what);
    expect(!out || out[length] == 0, "no zero byte ends what a call gives");
    html_render_free(out);
}

/* Expects a status of both calls, and a size unless that is 0. */
static void expect_both(const struct given *g, enum html_render_status status, size_t size, const char *what) {
    expect_status(html_render_text, g, status, size, what);
    expect_status(html_render_lines, g, status, size, what);
}

/* Returns a paragraph with a style rule that hides what it selects, after a setting without a text. */
static struct given with_rule(uint32_t flags) {
    struct given g = paragraph();
    g.settings[0].kind = HTML_RENDER_ALLOW_WIDTH_OVERFLOW;
    g.settings[1].kind = HTML_RENDER_ADD_STYLE_RULE;
    g.settings[1].number = HTML_RENDER_DISPLAY_NONE;
    g.settings[1].flags = flags;
    g.setting_count = 2;
    return g;
}

static void settings_past_the_text(void) {
    struct given g = paragraph();
    g.settings[0].kind = HTML_RENDER_EMPTY_IMG_MODE;
    g.settings[0].number = HTML_RENDER_IMAGE_REPLACE;
    g.settings[0].text_length = 4;
    g.setting_count = 1;
    expect_both(&g, HTML_RENDER_OK, 0, "a title that is all of the text is refused");
    g.settings[0].text_length = 5;
    expect_both(&g, HTML_RENDER_BAD_SETTING, 0, "a title that leaves the text is taken");
    g.settings[0].text_length = 3;
    expect_both(&g, HTML_RENDER_BAD_SETTING, 0, "a title that ends in a character is taken");
    g.settings[0].text = UINT32_MAX;
    g.settings[0].text_length = UINT32_MAX;
    expect_both(&g, HTML_RENDER_BAD_SETTING, 0, "a title that begins past the text is taken");
    g.settings[0].number = HTML_RENDER_IMAGE_FILENAME;
    expect_both(&g, HTML_RENDER_OK, 0, "a title that isn't asked for is looked at");

    g = with_rule(0);
    g.settings[1].element = g.settings[1].id_length = g.settings[1].text = 5;
    expect_both(&g, HTML_RENDER_OK, 0, "texts that a rule doesn't state are looked at");
    g.settings[1].flags = HTML_RENDER_RULE_HAS_ELEMENT;
    expect_both(&g, HTML_RENDER_BAD_SETTING, 1, "an element's name that leaves the text is taken");
    g.settings[1].flags = HTML_RENDER_RULE_HAS_ID;
    expect_both(&g, HTML_RENDER_BAD_SETTING, 1, "an id that leaves the text is taken");
    g = with_rule(0);
    g.settings[1].classes_length = 5;
    expect_both(&g, HTML_RENDER_BAD_SETTING, 1, "classes that leave the text are taken");
    g = with_rule(0);
    g.settings[1].number = HTML_RENDER_CONTENT;
    g.settings[1].text_length = 5;
    expect_both(&g, HTML_RENDER_BAD_SETTING, 1, "a content that leaves the text is taken");
}

/* Expects the first of several faults. */
static void faults_in_order(void) {
    struct given g = paragraph();
    expect_both(&g, HTML_RENDER_OK, 0, "a paragraph isn't rendered");
    g.width = 0;
    expect_both(&g, HTML_RENDER_TOO_NARROW, 0, "width 0 isn't too narrow");
    g.steps[0].name = 2;
    expect_both(&g, HTML_RENDER_BAD_STEP, 0, "a name that ends in a character is taken");
    g.settings[0].kind = HTML_RENDER_PAD_BLOCK_WIDTH;
    g.settings[1].kind = HTML_RENDER_WHOLE_WORDS + 1;
    g.setting_count = 2;
    expect_both(&g, HTML_RENDER_BAD_SETTING, 1, "a setting of no kind is taken");
    g.decorator = HTML_RENDER_RICH + 1;
    expect_both(&g, HTML_RENDER_BAD_DECORATOR, 0, "a third decorator is taken");
    g = paragraph();
    g.steps[1].node = 2;
    expect_both(&g, HTML_RENDER_BAD_STEP, 1, "a node that isn't there is taken");
    g.decorator = HTML_RENDER_RICH;
    expect_both(&g, HTML_RENDER_BAD_STEP, 1, "a node that isn't there is taken");
}

/* Records and renders a page. Returns the status; HTML_RENDER_OUT_OF_MEMORY too if there is no recording. */
static int page_of(char **text, size_t *length) {
    static const char *const CELLS[] = {"To", "Minutes", "Lighthouse Point", "20"};
    html_render_recording *page = html_render_new();
    html_render_node table, row = 0, cell;
    int i, status;
    *text = NULL;
    if (!page)
        return HTML_RENDER_OUT_OF_MEMORY;
    html_render_append_text(page, element(page, 0, "h1"), "Harbour ferries, which is long", 30);
    html_render_append_text(page, element(page, element(page, 0, "ul"), "li"), "an item", 7);
    table = element(page, element(page, 0, "table"), "tbody");
    for (i = 0; i < 4; i++) {
        if (i % 2 == 0)
            row = element(page, table, "tr");
        cell = element(page, row, "td");
        html_render_attribute(page, cell, HTML_RENDER_NO_NAMESPACE, "class", 5, "one two", 7);
        html_render_append_text(page, cell, CELLS[i], strlen(CELLS[i]));
    }
    html_render_set(page, HTML_RENDER_LINK_FOOTNOTES, 1, NULL);
    status = html_render_text_of(page, HTML_RENDER_PLAIN, 20, text, length);
    html_render_drop(page);
    return status;
}

/* Refuses each growth in turn, and those after it up to a number, until a run meets no refusal. Returns the runs. */
static long refusals(long many) {
    char *whole, *text;
    size_t whole_length, length;
    int status;
    expect(page_of(&whole, &whole_length) == HTML_RENDER_OK, "a page isn't rendered");
    refused_many = many;
    do {
        long before = blocks;
        growths = 0;
        refused_from++;
        status = page_of(&text, &length);
        if (status != HTML_RENDER_OUT_OF_MEMORY)
            expect(status == HTML_RENDER_OK && length == whole_length && !memcmp(text, whole, length),
                   "a refusal isn't reported");
        html_render_free(text);
        expect(blocks == before, "a block is lost");
    } while (growths >= refused_from && !failed);
    html_render_free(whole);
    status = (int)refused_from - 1;
    refused_from = 0;
    return status;
}

int main(void) {
    long two, all;
    deep();
    billion();
    settings_past_the_text();
    faults_in_order();
    two = refusals(2);
    all = refusals(1000000000);
    if (!failed)
        printf("%ld growths refused\n", two + all);
    return failed;
}
