/* Records each call that edits a document, and checks the text in 20 columns: of elements, comments and instructions,
 * texts, moves, templates, and names of other namespaces. Gives elements attributes of one local name in several
 * namespaces, which rendering doesn't tell apart, and checks which of them counts. */
#include "html_render.h"

#include <stdio.h>
#include <string.h>

static int checked, failed;

/* Expects the text of a page, and leaves the page as it is. */
static void expect_text(html_render_recording *page, const char *wanted, const char *what) {
    char *text;
    size_t length;
    enum html_render_status status = html_render_text_of(page, HTML_RENDER_PLAIN, 20, &text, &length);
    checked++;
    if (status != HTML_RENDER_OK || strcmp(text, wanted)) {
        printf("edits: %s: status %d, %s\n", what, (int)status, text ? text : "no text");
        failed = 1;
    }
    html_render_free(text);
}

/* Returns a new HTML element without a parent. */
static html_render_node element(html_render_recording *page, const char *name) {
    return html_render_element(page, HTML_RENDER_HTML, name, strlen(name));
}

/* Appends a text. */
static void put(html_render_recording *page, html_render_node parent, const char *text) {
    html_render_append_text(page, parent, text, strlen(text));
}

/* Returns a new HTML element with a text, which is appended to a node. */
static html_render_node child(html_render_recording *page, html_render_node parent, const char *name, const char *text) {
    html_render_node made = element(page, name);
    html_render_append(page, parent, made);
    if (text)
        put(page, made, text);
    return made;
}

/* Nodes and texts are appended in order. */
static void appended(void) {
    html_render_recording *page = html_render_new();
    html_render_node body = child(page, 0, "body", "a");
    put(page, body, "b");
    child(page, body, "em", "x");
    put(page, body, "c");
    expect_text(page, "abxc\n", "nodes and texts in order");
    html_render_drop(page);
}

/* Texts are put before a sibling, and join one that is directly before it. */
static void texts_before(void) {
    html_render_recording *page = html_render_new();
    html_render_node p = child(page, 0, "p", "a"), s, em;
    put(page, p, "b");
    s = child(page, p, "span", "s");
    html_render_append_text_before_sibling(page, s, "x", 1);
    expect_text(page, "abxs\n", "a text before a sibling");
    em = element(page, "span");
    put(page, em, "e");
    html_render_append_before_sibling(page, s, em);
    html_render_append_text_before_sibling(page, s, "y", 1);
    expect_text(page, "abxeys\n", "a text between siblings");
    html_render_drop(page);
}

/* Two texts that meet when the element between them is removed stay two, and the last one takes more. */
static void texts_after_a_removal(void) {
    html_render_recording *page = html_render_new();
    html_render_node p = child(page, 0, "p", "a"), em = child(page, p, "em", "e");
    put(page, p, "b");
    html_render_remove_from_parent(page, em);
    put(page, p, "c");
    expect_text(page, "abc\n", "texts after a removal");
    html_render_drop(page);
}

/* Children move directly before a sibling, from before it, from after it, and out of their parent. */
static void moved_before(void) {
    html_render_recording *page = html_render_new();
    html_render_node p = child(page, 0, "p", NULL), c = child(page, p, "span", "c"), b = child(page, p, "span", "b"),
                     s = child(page, p, "span", "s");
    html_render_append_before_sibling(page, s, c);
    expect_text(page, "bcs\n", "an earlier child");
    html_render_append_before_sibling(page, s, c);
    expect_text(page, "bcs\n", "a child that is in its place");
    html_render_append_before_sibling(page, c, s);
    expect_text(page, "bsc\n", "a later child");
    html_render_append_before_sibling(page, p, b);
    expect_text(page, "b\n\nsc\n", "a child out of its parent");
    html_render_drop(page);
}

/* All children are appended to those of another node. */
static void reparented(void) {
    html_render_recording *page = html_render_new();
    html_render_node u = child(page, 0, "p", NULL), v;
    child(page, u, "span", "a");
    child(page, u, "span", "b");
    v = child(page, 0, "p", NULL);
    child(page, v, "span", "c");
    html_render_reparent_children(page, u, v);
    expect_text(page, "cab\n", "children of another node");
    html_render_drop(page);
}

/* A node or a text is put before an element with a parent, and otherwise after the children of another node. */
static void put_by_parent(void) {
    html_render_recording *page = html_render_new();
    html_render_node p = child(page, 0, "p", NULL), q = element(page, "p"), a = element(page, "span"),
                     b = element(page, "span");
    put(page, q, "q");
    put(page, a, "a");
    put(page, b, "b");
    html_render_append_text_based_on_parent_node(page, q, p, "x", 1);
    html_render_append_based_on_parent_node(page, q, p, a);
    expect_text(page, "xa\n", "after the children of another node");
    html_render_append(page, 0, q);
    html_render_append_text_based_on_parent_node(page, q, p, "y", 1);
    html_render_append_based_on_parent_node(page, q, p, b);
    expect_text(page, "xa\n\nyb\n\nq\n", "before an element with a parent");
    html_render_drop(page);
}

/* A removed node keeps its children, and may be appended again. */
static void removed(void) {
    html_render_recording *page = html_render_new();
    html_render_node p = child(page, 0, "p", NULL);
    child(page, p, "span", "b");
    html_render_remove_from_parent(page, p);
    html_render_remove_from_parent(page, p);
    expect_text(page, "", "a removed node");
    html_render_append(page, 0, p);
    expect_text(page, "b\n", "a node that is appended again");
    html_render_drop(page);
}

/* The contents of a template aren't its children, and show nothing. */
static void templates(void) {
    html_render_recording *page = html_render_new();
    html_render_node made = html_render_element(page, HTML_RENDER_HTML | HTML_RENDER_TEMPLATE, "template", 8), contents;
    html_render_append(page, 0, made);
    contents = html_render_template_contents(page, made);
    child(page, contents, "p", "x");
    expect_text(page, "", "contents of a template");
    html_render_reparent_children(page, contents, 0);
    expect_text(page, "x\n", "contents that are moved out");
    html_render_drop(page);
}

/* Comments, instructions and doctypes show nothing, and part the texts beside them. */
static void hidden(void) {
    html_render_recording *page = html_render_new();
    html_render_node comment = html_render_comment(page, "c", 1),
                     instruction = html_render_instruction(page, "t", 1, "", 0);
    html_render_doctype(page, "html", 4, "", 0);
    html_render_quirks(page, HTML_RENDER_LIMITED_QUIRKS);
    put(page, 0, "a");
    html_render_append(page, instruction, comment);
    html_render_append(page, 0, instruction);
    put(page, 0, "b");
    put(page, comment, "x");
    html_render_reparent_children(page, comment, 0);
    expect_text(page, "abx\n", "nodes that show nothing");
    html_render_drop(page);
}

/* Elements of other namespaces are only containers. */
static void namespaces(void) {
    static const uint32_t OTHERS[] = {HTML_RENDER_SVG, HTML_RENDER_MATHML, HTML_RENDER_NO_NAMESPACE};
    html_render_recording *page = html_render_new();
    html_render_node pre = 0;
    int i;
    put(page, child(page, 0, "sup", NULL), "2");
    for (i = 0; i < 3; i++) {
        html_render_append(page, 0, html_render_element(page, OTHERS[i], "sup", 3));
        pre = html_render_element(page, OTHERS[i], "pre", 3);
        html_render_append(page, 0, pre);
        put(page, pre, "a  b ");
    }
    expect_text(page, "\xc2\xb2" "a b a b a b\n", "elements of other namespaces");
    html_render_drop(page);
}

/* An element keeps the first of two attributes of a name. */
static void attributes(void) {
    html_render_recording *page = html_render_new();
    html_render_node link = child(page, 0, "a", "k");
    html_render_attribute(page, link, HTML_RENDER_NO_NAMESPACE, "href", 4, "u", 1);
    html_render_attribute(page, link, HTML_RENDER_NO_NAMESPACE, "href", 4, "v", 1);
    html_render_set(page, HTML_RENDER_LINK_FOOTNOTES, 1, NULL);
    expect_text(page, "[k][1]\n\n[1]: u\n", "two attributes of a name");
    html_render_drop(page);
}

/* Gives an element attributes: names and values, up to NULL. Those of one name are in namespaces of their own. */
static void give(html_render_recording *page, html_render_node node, const char *const *fields) {
    static const uint32_t SPACES[] = {HTML_RENDER_NO_NAMESPACE, HTML_RENDER_HTML, HTML_RENDER_SVG, HTML_RENDER_MATHML};
    int i, j, before;
    for (i = 0; fields[i]; i += 2) {
        for (before = 0, j = 0; j < i; j += 2)
            before += !strcmp(fields[i], fields[j]);
        html_render_attribute(page, node, SPACES[before], fields[i], strlen(fields[i]), fields[i + 1],
                              strlen(fields[i + 1]));
    }
}

/* Expects the records of the line of rich text of an image with these attributes. */
static void expect_image(const char *const *fields, char source, char title, const char *what) {
    /* a line, and a string of one annotation: an image with a source of a byte; then a title of a byte */
    char wanted[] = "LS\1\0\0\0i\1\0\0\0?\1\0\0\0?";
    html_render_recording *page = html_render_new();
    char *records;
    size_t length;
    wanted[11] = source;
    wanted[16] = title;
    give(page, child(page, 0, "img", NULL), fields);
    checked++;
    if (html_render_lines_of(page, HTML_RENDER_RICH, 20, &records, &length) != HTML_RENDER_OK ||
        length != sizeof wanted - 1 || memcmp(records, wanted, length)) {
        printf("edits: %s\n", what);
        failed = 1;
    }
    html_render_free(records);
    html_render_drop(page);
}

/* Expects the text of an image with these attributes, and without a title. */
static void expect_file(const char *const *fields, const char *wanted, const char *what) {
    html_render_recording *page = html_render_new();
    give(page, child(page, 0, "img", NULL), fields);
    html_render_set(page, HTML_RENDER_EMPTY_IMG_MODE, HTML_RENDER_IMAGE_FILENAME, NULL);
    expect_text(page, wanted, what);
    html_render_drop(page);
}

/* Of the sources and the titles of an image, those up to the first of the other kind count, the last one of them. */
static void images(void) {
    static const char *const TWO[] = {"src", "s", "src", "t", NULL};
    static const char *const EMPTY[] = {"src", "s", "src", "", NULL};
    static const char *const BOTH[] = {"alt", "a", "alt", "b", "src", "s", "src", "t", NULL};
    static const char *const SOURCES[] = {"src", "s", "src", "t", "alt", "a", "src", "u", "alt", "b", NULL};
    static const char *const TITLES[] = {"alt", "a", "alt", "", "alt", "b", "alt", "", "src", "s", NULL};
    expect_file(TWO, "[t]\n", "of two sources before any title the last counts");
    expect_file(EMPTY, "[s]\n", "an empty source after another doesn't count");
    expect_image(BOTH, 's', 'b', "a title and a source are read until both are there");
    expect_image(SOURCES, 't', 'a', "sources up to the first title count, the last one of them");
    expect_image(TITLES, 's', 'b', "titles up to the first source count, the last one that isn't empty");
}

/* The first of two targets, and of two starts of a list, counts. */
static void firsts(void) {
    static const char *const TARGETS[] = {"href", "u", "href", "v", NULL};
    static const char *const STARTS[] = {"start", "3", "start", "4", NULL};
    static const char *const BAD_STARTS[] = {"start", "x", "start", "4", NULL};
    html_render_recording *page = html_render_new();
    html_render_node list = child(page, 0, "ol", NULL);
    child(page, list, "li", "a");
    give(page, list, STARTS);
    list = child(page, 0, "ol", NULL);
    child(page, list, "li", "a");
    give(page, list, BAD_STARTS);
    give(page, child(page, 0, "a", "k"), TARGETS);
    html_render_set(page, HTML_RENDER_LINK_FOOTNOTES, 1, NULL);
    expect_text(page, "3. a\n1. a\n[k][1]\n\n[1]: u\n", "the first of two targets and of two starts counts");
    html_render_drop(page);
}

/* box drawings of a table */
#define LINE "\xe2\x94\x80"
#define BAR "\xe2\x94\x82"
#define DOWN "\xe2\x94\xac"
#define UP "\xe2\x94\xb4"
#define CROSS "\xe2\x94\xbc"

/* The last of two colspans counts, also if it is no number. */
static void colspans(void) {
    static const char *const FIRST[] = {"colspan", "2", "colspan", "+3", "rowspan", "0", NULL};
    static const char *const SECOND[] = {"colspan", "2", "colspan", "x", NULL};
    static const char *const THIRD[] = {"colspan", "", "rowspan", "02", NULL};
    html_render_recording *page = html_render_new();
    html_render_node body = child(page, child(page, 0, "table", NULL), "tbody", NULL), row = child(page, body, "tr", NULL);
    give(page, child(page, row, "td", "a"), FIRST);
    give(page, child(page, row, "td", "b"), SECOND);
    give(page, child(page, row, "td", "c"), THIRD);
    row = child(page, body, "tr", NULL);
    child(page, row, "td", "d");
    child(page, row, "td", "e");
    child(page, row, "td", "f");
    child(page, row, "td", "g");
    expect_text(page, LINE LINE LINE LINE LINE DOWN LINE DOWN LINE "\na    " BAR "b" BAR "c\n" LINE DOWN LINE DOWN LINE CROSS LINE CROSS
                LINE "\nd" BAR "e" BAR "f" BAR "g" BAR " \n" LINE UP LINE UP LINE UP LINE UP LINE "\n",
                "what each colspan makes of a row");
    html_render_drop(page);
}

int main(void) {
    appended();
    texts_before();
    texts_after_a_removal();
    moved_before();
    reparented();
    put_by_parent();
    removed();
    templates();
    hidden();
    namespaces();
    attributes();
    images();
    firsts();
    colspans();
    if (!failed)
        printf("%d texts\n", checked);
    return failed;
}
