/* Renders a paragraph under style rules that html_render_add_rule records: of each property, white space, place and
 * origin, and of parts that select the paragraph or don't. Checks that a rule without a meaning is refused. */
#include "html_render.h"

#include <stdio.h>
#include <string.h>

static int checked, failed;

static void expect(int is_so, const char *what) {
    checked++;
    if (!is_so) {
        printf("rules: %s\n", what);
        failed = 1;
    }
}

/* Returns a page of a paragraph with an id, two classes and the text "ab  cde". */
static html_render_recording *paragraph(void) {
    html_render_recording *page = html_render_new();
    html_render_node node = html_render_element(page, HTML_RENDER_HTML, "p", 1);
    html_render_append(page, 0, node);
    html_render_append_text(page, node, "ab  cde", 7);
    html_render_attribute(page, node, HTML_RENDER_NO_NAMESPACE, "id", 2, "one", 3);
    html_render_attribute(page, node, HTML_RENDER_NO_NAMESPACE, "class", 5, "red big", 7);
    return page;
}

/* Expects the text of a page in 6 columns, and frees the page. */
static void expect_text(html_render_recording *page, const char *wanted, const char *what) {
    char *text;
    size_t length;
    enum html_render_status status = html_render_text_of(page, HTML_RENDER_PLAIN, 6, &text, &length);
    expect(status == HTML_RENDER_OK && !strcmp(text, wanted), what);
    html_render_free(text);
    html_render_drop(page);
}

/* Expects the text of the paragraph under a rule. */
static void expect_under(struct html_render_rule rule, const char *wanted, const char *what) {
    html_render_recording *page = paragraph();
    html_render_add_rule(page, &rule);
    expect_text(page, wanted, what);
}

/* Returns the author's rule of a property for each element. */
static struct html_render_rule rule_of(enum html_render_property declares, uint32_t value) {
    struct html_render_rule rule = {0};
    rule.declares = declares;
    rule.value = value;
    rule.origin = HTML_RENDER_ORIGIN_AUTHOR;
    return rule;
}

/* Returns the author's rule of content for each element. */
static struct html_render_rule content(enum html_render_place place, const char *text) {
    struct html_render_rule rule = rule_of(HTML_RENDER_CONTENT, 0);
    rule.content = text;
    rule.place = place;
    return rule;
}

static void white_space(void) {
    expect_under(rule_of(HTML_RENDER_WHITE_SPACE, HTML_RENDER_WHITE_SPACE_NORMAL), "ab cde\n", "white-space: normal");
    expect_under(rule_of(HTML_RENDER_WHITE_SPACE, HTML_RENDER_WHITE_SPACE_PRE), "ab  cd\ne\n", "white-space: pre");
    expect_under(rule_of(HTML_RENDER_WHITE_SPACE, HTML_RENDER_WHITE_SPACE_PRE_WRAP), "ab  \ncde\n",
                 "white-space: pre-wrap");
}

static void places(void) {
    expect_under(content(HTML_RENDER_PLACE_ELEMENT, "-"), "ab cde\n", "content of an element is shown");
    expect_under(content(HTML_RENDER_PLACE_BEFORE, "-"), "-ab\ncde\n", "content before an element");
    expect_under(content(HTML_RENDER_PLACE_AFTER, "-"), "ab\ncde-\n", "content after an element");
    expect_under(content(HTML_RENDER_PLACE_AFTER, NULL), "ab cde\n", "content NULL isn't empty");
}

/* Expects that the first string of the page has one annotation under a rule of a colour. */
static void expect_annotation(enum html_render_property declares, const char *annotation, const char *what) {
    /* a line, the mark of the id, and a string of one annotation; the number's last zero ends the text */
    static const char begin[] = "LF\3\0\0\0oneS\1\0\0";
    html_render_recording *page = paragraph();
    struct html_render_rule rule = rule_of(declares, 0x123456);
    char *records;
    size_t length;
    html_render_add_rule(page, &rule);
    expect(html_render_lines_of(page, HTML_RENDER_RICH, 6, &records, &length) == HTML_RENDER_OK &&
               length > sizeof begin + 4 && !memcmp(records, begin, sizeof begin) &&
               !memcmp(records + sizeof begin, annotation, 4),
           what);
    html_render_free(records);
    html_render_drop(page);
}

static void properties(void) {
    expect_under(rule_of(HTML_RENDER_DISPLAY_NONE, 0), "", "display: none");
    expect_annotation(HTML_RENDER_COLOUR, "f\x12\x34\x56", "color");
    expect_annotation(HTML_RENDER_BACKGROUND, "g\x12\x34\x56", "background-color");
}

/* Expects which of two rules wins that write their origin's number before the paragraph. */
static void expect_winner(enum html_render_origin first, enum html_render_origin second, int important) {
    static const char *const CONTENTS[] = {"0", "1", "2", "3"};
    static const char *const TEXTS[] = {"0ab\ncde\n", "1ab\ncde\n", "2ab\ncde\n", "3ab\ncde\n"};
    html_render_recording *page = paragraph();
    struct html_render_rule rule = content(HTML_RENDER_PLACE_BEFORE, CONTENTS[first]);
    rule.origin = first;
    rule.important = important;
    html_render_add_rule(page, &rule);
    rule.origin = second;
    rule.content = CONTENTS[second];
    html_render_add_rule(page, &rule);
    expect_text(page, TEXTS[(first > second) == !important ? first : second], "a rule of another origin wins");
}

static void origins(void) {
    enum html_render_origin all[] = {HTML_RENDER_ORIGIN_NONE, HTML_RENDER_ORIGIN_AGENT, HTML_RENDER_ORIGIN_USER,
                                     HTML_RENDER_ORIGIN_AUTHOR};
    int i, j;
    for (i = 0; i < 4; i++)
        for (j = 0; j < 4; j++)
            if (i != j) {
                expect_winner(all[i], all[j], 0);
                expect_winner(all[i], all[j], 1);
            }
}

/* Expects whether a rule selects the paragraph. */
static void expect_selected(const char *element, const char *id, const char *classes, int is_selected,
                            const char *what) {
    struct html_render_rule rule = rule_of(HTML_RENDER_DISPLAY_NONE, 0);
    rule.element = element;
    rule.id = id;
    rule.classes = classes;
    expect_under(rule, is_selected ? "" : "ab cde\n", what);
}

static void selectors(void) {
    expect_selected("p", "one", "big red", 1, "element, id and classes");
    expect_selected("p", NULL, NULL, 1, "an element's name");
    expect_selected("em", NULL, NULL, 0, "another element's name");
    expect_selected(NULL, "one", NULL, 1, "an id");
    expect_selected(NULL, "two", NULL, 0, "another id");
    expect_selected(NULL, NULL, "red", 1, "a class");
    expect_selected(NULL, NULL, "red blue", 0, "another class");
}

/* Expects that a rule is refused, after one that isn't. */
static void expect_refused(struct html_render_rule rule, const char *what) {
    html_render_recording *page = paragraph();
    struct html_render_rule hides = rule_of(HTML_RENDER_DISPLAY_NONE, 0);
    char *text;
    size_t length;
    html_render_add_rule(page, &hides);
    html_render_add_rule(page, &rule);
    expect(html_render_text_of(page, HTML_RENDER_PLAIN, 6, &text, &length) == HTML_RENDER_BAD_SETTING && !text &&
               length == 1,
           what);
    html_render_drop(page);
}

static void refusals(void) {
    struct html_render_rule rule = rule_of(HTML_RENDER_WHITE_SPACE, HTML_RENDER_WHITE_SPACE_PRE_WRAP + 1);
    expect_refused(rule, "white space of no name is taken");
    rule = rule_of((enum html_render_property)(HTML_RENDER_CONTENT + 1), 0);
    expect_refused(rule, "a property of no name is taken");
    rule = content((enum html_render_place)1, "-");
    expect_refused(rule, "a place of no name is taken");
    rule = content((enum html_render_place)(HTML_RENDER_PLACE_BEFORE | HTML_RENDER_PLACE_AFTER), "-");
    expect_refused(rule, "two places are taken");
    rule = content(HTML_RENDER_PLACE_BEFORE, "-");
    rule.origin = (enum html_render_origin)(HTML_RENDER_ORIGIN_AUTHOR + 1);
    expect_refused(rule, "an origin of no name is taken");
    rule = content(HTML_RENDER_PLACE_BEFORE, "\xFF");
    expect_refused(rule, "content that isn't UTF-8 is taken");
}

int main(void) {
    white_space();
    places();
    properties();
    origins();
    selectors();
    refusals();
    if (!failed)
        printf("%d texts and refusals\n", checked);
    return failed;
}
