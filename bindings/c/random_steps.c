/* Gives the library arrays of random steps and settings, most of them faulty, and checks that each is refused or
 * rendered.
 *
 *   random_steps COUNT SEED [tame]      tame: no width is huge, so that no line is
 */
#include "steps.h"

#include <stdio.h>
#include <stdlib.h>
#include <string.h>

static uint64_t state;

static uint32_t random_number(uint32_t below) {
    state = state * 6364136223846793005u + 1442695040888963407u;
    return below ? (uint32_t)(state >> 33) % below : 0;
}

/* one in so many numbers is anything; if it is great, an array of many steps isn't refused at once */
static uint32_t seldom;

/* Returns a random number, mostly below one, sometimes anything. */
static uint32_t wild(uint32_t below) {
    switch (random_number(seldom)) {
    case 0:
        return UINT32_MAX - random_number(3);
    case 1:
        return 1000000000u;
    default:
        return random_number(below);
    }
}

/* Names of elements, and then names and values of attributes, and texts. */
static const char *const WORDS[] = {
    "p", "div", "table", "tbody", "tr", "td", "ul", "li", "ol", "a", "em", "pre", "h1", "blockquote", "img",
    "template", "href", "src", "alt", "colspan", "rowspan", "id", "3", "0", "99999999999999999999",
    "wide \xe7\x95\x8c text", "\xff", " ", ""};

enum { WORD_COUNT = sizeof WORDS / sizeof WORDS[0], NAME_COUNT = 16 };

/* The words, one after another, and where each is. */
static uint8_t text[512];
static uint32_t starts[WORD_COUNT], lengths[WORD_COUNT], size;

static void write_words(void) {
    uint32_t i;
    for (i = 0; i < WORD_COUNT; i++) {
        starts[i] = size;
        lengths[i] = (uint32_t)strlen(WORDS[i]);
        memcpy(text + size, WORDS[i], lengths[i]);
        size += lengths[i];
    }
}

/* Returns the kind of a step, mostly of one that appends an element or a text, or adds an attribute. */
static uint32_t random_kind(void) {
    if (!random_number(seldom / 8))
        return wild(HTML_RENDER_STEP_APPEND_ELEMENT + 2);
    if (!random_number(8))
        return HTML_RENDER_STEP_ADD_ATTRIBUTE;
    return random_number(2) ? HTML_RENDER_STEP_PUT_TEXT : HTML_RENDER_STEP_APPEND_ELEMENT;
}

/* Returns the step with a number, the first of which appends an element. */
static struct html_render_step random_step(uint32_t number) {
    struct html_render_step step;
    uint32_t name = random_number(NAME_COUNT), value = random_number(WORD_COUNT);
    step.kind = random_kind();
    if (number == 0)
        step.kind = HTML_RENDER_STEP_APPEND_ELEMENT;
    step.flags = random_number(seldom / 8) ? HTML_RENDER_HTML : wild(20);
    step.node = step.kind == HTML_RENDER_STEP_ADD_ATTRIBUTE ? 1 : wild(1 + number / 4);
    step.other = wild(number + 1);
    step.child = random_number(3) ? number : wild(number + 1);
    step.name = random_number(seldom) ? starts[name] : wild(size);
    step.name_length = random_number(seldom) ? lengths[name] : wild(size);
    step.value = random_number(seldom) ? starts[value] : wild(size);
    step.value_length = random_number(seldom) ? lengths[value] : wild(size);
    return step;
}

/* Returns a setting. */
static struct html_render_setting random_setting(int is_tame) {
    struct html_render_setting setting = {0};
    setting.kind = 1 + wild(HTML_RENDER_ADD_STYLE_RULE);
    setting.number = is_tame ? random_number(5) : wild(5);
    setting.value = wild(4);
    setting.flags = wild(128);
    setting.text_length = wild(size);
    setting.element_length = wild(3);
    return setting;
}

int main(int argc, char **argv) {
    unsigned long count = argc > 1 ? strtoul(argv[1], NULL, 10) : 2000, rendered = 0, refused = 0;
    int is_tame = argc > 3;
    state = argc > 2 ? strtoul(argv[2], NULL, 10) : 1;
    write_words();
    while (count--) {
        uint32_t step_count = 1 + random_number(60), setting_count = random_number(4), i;
        /* blocks of their own, so that the sanitizer sees what is read past them */
        struct html_render_step *steps = calloc(step_count, sizeof *steps);
        struct html_render_setting *settings = calloc(setting_count ? setting_count : 1, sizeof *settings);
        uint8_t *out = NULL;
        size_t length = 0, width;
        uint32_t status, decorator;
        int is_text;
        if (!steps || !settings)
            return 2;
        seldom = random_number(2) ? 40 : 4000;
        for (i = 0; i < step_count; i++)
            steps[i] = random_step(i);
        for (i = 0; i < setting_count; i++)
            settings[i] = random_setting(is_tame);
        is_text = random_number(2);
        width = is_tame ? random_number(30) : wild(30);
        decorator = wild(HTML_RENDER_RICH + 1);
        status = (is_text ? html_render_text : html_render_lines)(steps, step_count, text, size, settings,
                                                                  setting_count, decorator, width, &out, &length);
        if (status == HTML_RENDER_OK) {
            rendered++;
            if (out[length] != 0)
                return 1;
            html_render_free(out);
        } else {
            refused++;
            if (out || status > HTML_RENDER_BAD_DECORATOR ||
                (status == HTML_RENDER_BAD_STEP && length >= step_count) ||
                (status == HTML_RENDER_BAD_SETTING && length >= setting_count))
                return 1;
        }
        free(steps);
        free(settings);
    }
    printf("%lu rendered, %lu refused\n", rendered, refused);
    return 0;
}
