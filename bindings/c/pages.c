/* Renders pages of HTML by html_render_html and html_render_html_lines: under each option, and with faulty arguments. */
#include "html_render.h"

#include <stdio.h>
#include <stdlib.h>
#include <string.h>

static int checked, failed;

static void expect(int is_so, const char *what) {
    checked++;
    if (!is_so) {
        printf("pages: %s\n", what);
        failed = 1;
    }
}

/* Returns options that change nothing. */
static struct html_render_options defaults(void) {
    struct html_render_options options = {0};
    options.size = sizeof options;
    return options;
}

/* Expects the text of a page under options. */
static void expect_text(const char *page, size_t width, const struct html_render_options *options, const char *wanted) {
    char *text;
    size_t length;
    enum html_render_status status = html_render_html(page, strlen(page), width, options, &text, &length);
    int is_so = status == HTML_RENDER_OK && length == strlen(wanted) && !strcmp(text, wanted);
    expect(is_so, wanted);
    if (!is_so)
        printf("is status %d: %s\n", (int)status, text ? text : "");
    html_render_free(text);
}

/* Expects the records of a page's lines, which may have zero bytes, under a style. */
static void expect_records(const char *page, enum html_render_style style, const char *wanted, size_t wanted_length) {
    struct html_render_options options = defaults();
    char *records;
    size_t length;
    options.style = style;
    expect(html_render_html_lines(page, strlen(page), 20, &options, &records, &length) == HTML_RENDER_OK, page);
    expect(length == wanted_length && !memcmp(records, wanted, length) && records[length] == 0, "records");
    html_render_free(records);
}

/* Expects a status other than HTML_RENDER_OK of both calls. */
static void expect_fault(const char *page, size_t length, size_t width, const struct html_render_options *options,
                         enum html_render_status wanted, const char *what) {
    char other = 0, *given = &other;
    size_t given_length = 1;
    expect(html_render_html(page, length, width, options, &given, &given_length) == wanted, what);
    expect(!given && !given_length, what);
    given = &other;
    given_length = 1;
    expect(html_render_html_lines(page, length, width, options, &given, &given_length) == wanted, what);
    expect(!given && !given_length, what);
}

static void expect_bad_option(struct html_render_options options, enum html_render_status wanted, const char *what) {
    expect_fault("<p>a", 4, 20, &options, wanted, what);
}

static void expect_flag(uint64_t flag, const char *page, size_t width, const char *wanted) {
    struct html_render_options options = defaults();
    options.flags = flag;
    expect_text(page, width, &options, wanted);
}

static void expect_options(void) {
    const char *link = "<a href='/b'>a</a>", *image = "<img src='a/b.png' alt=''>";
    const char *table = "<table><tr><td>a<td>b<tr><td>c<td>d</table>";
    struct html_render_options options = defaults();
    expect_text("<p>one <em>two</em>", 80, NULL, "one *two*\n");
    expect_text("<p>one <em>two</em>", 80, &options, "one *two*\n");
    options.base = "https://c.example/";
    expect_text(link, 80, &options, "a[1]\n\n[1]: https://c.example/b\n");
    options.links = HTML_RENDER_LINKS_INLINE;
    expect_text(link, 80, &options, "a <https://c.example/b>\n");
    options.links = HTML_RENDER_LINKS_LIST;
    expect_text(link, 80, &options, "a\n\nhttps://c.example/b\n");
    options.links = HTML_RENDER_LINKS_NONE;
    expect_text(link, 80, &options, "a\n");
    options = defaults();
    options.style = HTML_RENDER_STYLE_BARE;
    expect_text("<p><em>a</em>", 80, &options, "a\n");
    options.links = HTML_RENDER_LINKS_NOTES;
    expect_text(link, 80, &options, "a[1]\n\n[1]: /b\n");
    options = defaults();
    options.charset = "koi8-r";
    expect_text("<p>\xcd\xc9\xd2", 80, &options, "\xd0\xbc\xd0\xb8\xd1\x80\n");
    options = defaults();
    options.css = "b { display: none }";
    expect_text("<p>a<b>b</b>c", 80, &options, "ac\n");
    options = defaults();
    options.max_width = 3;
    expect_text("<p>one two", 80, &options, "one\ntwo\n");
    options = defaults();
    options.tables = HTML_RENDER_TABLES_NONE;
    expect_text(table, 80, &options, "a  b\nc  d\n");
    options.tables = HTML_RENDER_TABLES_ALL;
    options.flags = HTML_RENDER_FLAG_NO_BORDERS | HTML_RENDER_FLAG_FENCE_TABLES;
    expect_text(table, 80, &options, "```\na b\nc d\n```\n");
    options = defaults();
    expect_text(image, 80, &options, "");
    options.images = HTML_RENDER_IMAGE_FILENAME;
    expect_text(image, 80, &options, "[b.png]\n");
    options.images = HTML_RENDER_IMAGE_REPLACE;
    options.image_title = "picture";
    expect_text(image, 80, &options, "[picture]\n");
}

static void expect_flags(void) {
    const char *link = "<a href=https://c.example>a</a>", *price = "<table border=1><tr><td>Price<td>of the best</table>";
    expect_flag(HTML_RENDER_FLAG_TITLE, "<title>a</title><p>b", 20, "a\n\nb\n");
    expect_flag(HTML_RENDER_FLAG_PAGE_CSS, "<style>.a { display: none }</style><p class=a>b<p>c", 20, "c\n");
    expect_flag(HTML_RENDER_FLAG_KEEP_CONTROLS, "<a href='&#27;x'>a</a>", 20, "a[1]\n\n[1]: \033x\n");
    expect_flag(HTML_RENDER_FLAG_WRAP_LINKS, link, 20, "a[1]\n\n[1]: https://c.examp\nle\n");
    expect_flag(HTML_RENDER_FLAG_WRAP_CODE, "<pre>abcdef</pre>", 4, "   a\nbcde\nf\n");
    expect_flag(0, "<pre>abcdef</pre>", 4, "   abcdef\n");
    expect_flag(HTML_RENDER_FLAG_RAW_TABLES, price, 20, "Price\nof the best\n");
    expect_flag(HTML_RENDER_FLAG_NO_BORDERS, price, 14, "Price of the\n      best\n");
    expect_flag(HTML_RENDER_FLAG_NO_BORDERS | HTML_RENDER_FLAG_CUT_WORDS, price, 10, "Pri of the\nce  best\n");
    expect_flag(HTML_RENDER_FLAG_PAD, "<p>a", 3, "a  \n");
    expect_flag(0, "\xe4\xb8\x96", 1, "\xe4\xb8\x96\n");
}

static void expect_lines(void) {
    static const char rich[] = "LS\1\0\0\0l\1\0\0\0y\1\0\0\0a", plain[] = "LS\0\0\0\0\1\0\0\0a";
    expect_records("<a href=y>a</a>", HTML_RENDER_STYLE_RICH, rich, sizeof rich - 1);
    expect_records("<p>a", HTML_RENDER_STYLE_BARE, plain, sizeof plain - 1);
    expect_records("", HTML_RENDER_STYLE_PLAIN, "", 0);
}

/* Options of a later version. */
struct grown {
    struct html_render_options known;
    uint64_t unknown;
};

/* Expects that options of the first version, which end with `flags`, are taken, and nothing after them is read. */
static void expect_first_version(void) {
    size_t size = offsetof(struct html_render_options, max_nodes);
    struct html_render_options options = defaults(), *first = malloc(size);
    options.size = size;
    options.flags = HTML_RENDER_FLAG_PAD;
    memcpy(first, &options, size);
    expect_text("<p>a", 3, first, "a  \n");
    free(first);
    options.max_nodes = 1;
    expect_text("<p>a", 3, &options, "a  \n");
}

/* Expects that a page is refused that has more nodes, or attributes that are read, than the options say. */
static void expect_max_nodes(void) {
    static const char attributes[] = "<p id=a class=b name=c title=d><br id=a class=b name=c title=d><hr id=c>";
    struct html_render_options options = defaults();
    options.max_nodes = 6;
    expect_text("<p>a", 20, &options, "a\n");
    expect_text("<p id=a class=b name=c>a", 20, &options, "a\n");
    expect_fault("<p>a<br>", 8, 20, &options, HTML_RENDER_TOO_LARGE, "a node too many");
    options.max_nodes = 8;
    expect_fault(attributes, sizeof attributes - 1, 20, &options, HTML_RENDER_TOO_LARGE, "an attribute too many");
    options.max_nodes = 1;
    expect_fault("", 0, 20, &options, HTML_RENDER_TOO_LARGE, "a limit below each page");
    options.max_nodes = SIZE_MAX;
    expect_text("<p>a", 20, &options, "a\n");
}

static void expect_sizes(void) {
    struct html_render_options options = defaults();
    struct grown grown = {0};
    grown.known.size = sizeof grown;
    expect_text("<p>a", 20, &grown.known, "a\n");
    grown.unknown = 1;
    expect_fault("<p>a", 4, 20, &grown.known, HTML_RENDER_BAD_ARGUMENT, "an option that isn't known");
    options.size = 0;
    expect_bad_option(options, HTML_RENDER_BAD_ARGUMENT, "a size of 0");
    options.size = sizeof options - 1;
    expect_bad_option(options, HTML_RENDER_BAD_ARGUMENT, "a size within the last field");
    options.size = offsetof(struct html_render_options, max_nodes) - 1;
    expect_bad_option(options, HTML_RENDER_BAD_ARGUMENT, "a size that is too small");
    options.size = 4097;
    expect_bad_option(options, HTML_RENDER_BAD_ARGUMENT, "a size that is too large");
    options.size = SIZE_MAX;
    expect_bad_option(options, HTML_RENDER_BAD_ARGUMENT, "the largest size");
}

/* Expects that a number of an option that isn't in its enumeration is refused. Enumerations have 4 bytes. */
static void expect_numbers(void) {
    static const uint32_t numbers[] = {3, 5, 3, 4, UINT32_MAX};
    size_t at;
    for (at = 0; at < 8; at++) {
        struct html_render_options options = defaults();
        uint32_t number = numbers[at < 4 ? at : 4];
        char *place = at % 4 == 0   ? (char *)&options.style
                      : at % 4 == 1 ? (char *)&options.links
                      : at % 4 == 2 ? (char *)&options.tables
                                    : (char *)&options.images;
        memcpy(place, &number, sizeof number);
        expect_bad_option(options, HTML_RENDER_BAD_ARGUMENT, "a number without a name");
    }
}

static void expect_bad_options(void) {
    struct html_render_options options = defaults();
    options.flags = 4096;
    expect_bad_option(options, HTML_RENDER_BAD_ARGUMENT, "a flag without a name");
    options.flags = UINT64_MAX;
    expect_bad_option(options, HTML_RENDER_BAD_ARGUMENT, "all flags");
    options = defaults();
    options.charset = "klingon";
    expect_bad_option(options, HTML_RENDER_BAD_CHARSET, "a charset that isn't there");
    options.charset = "\xff";
    expect_bad_option(options, HTML_RENDER_BAD_CHARSET, "a charset that isn't UTF-8");
    options = defaults();
    options.base = "a.html";
    expect_bad_option(options, HTML_RENDER_BAD_BASE, "a base that isn't absolute");
    options.base = "https://\xff";
    expect_bad_option(options, HTML_RENDER_BAD_BASE, "a base that isn't UTF-8");
    options = defaults();
    options.css = "h1";
    expect_bad_option(options, HTML_RENDER_BAD_CSS, "a rule without a block");
    options.css = "\xff {}";
    expect_bad_option(options, HTML_RENDER_BAD_CSS, "a style sheet that isn't UTF-8");
    options = defaults();
    options.image_title = "\xff";
    expect_bad_option(options, HTML_RENDER_BAD_ARGUMENT, "a title that isn't UTF-8");
}

static void expect_bad_arguments(void) {
    struct html_render_options narrow = defaults();
    char *text;
    size_t length = 1;
    narrow.flags = HTML_RENDER_FLAG_NARROW;
    expect_fault("<p>a", 4, 0, NULL, HTML_RENDER_TOO_NARROW, "width 0");
    expect_fault("\xe4\xb8\x96", 3, 1, &narrow, HTML_RENDER_TOO_NARROW, "a character that is wider than a line");
    expect_fault(NULL, 1, 20, NULL, HTML_RENDER_BAD_ARGUMENT, "NULL with a length");
    expect_fault("", (size_t)-1, 20, NULL, HTML_RENDER_BAD_ARGUMENT, "the largest length");
    expect(html_render_html(NULL, 0, 20, NULL, &text, &length) == HTML_RENDER_OK && length == 0 && !*text, "NULL without a length");
    html_render_free(text);
    expect(html_render_html("a", 1, 20, NULL, NULL, &length) == HTML_RENDER_BAD_ARGUMENT, "no place of a text");
    expect(html_render_html("a", 1, 20, NULL, &text, NULL) == HTML_RENDER_BAD_ARGUMENT, "no place of a length");
    expect_text("<p>\xe9", 20, NULL, "\xc3\xa9\n");
    expect_text("<p>a", SIZE_MAX, NULL, "a\n");
}

/* Expects a status of a page of many tags of 4 characters. */
static void expect_many(const char *tag, size_t count, enum html_render_status wanted) {
    char *page = malloc(4 * count), *text;
    size_t length, at;
    for (at = 0; at < count; at++)
        memcpy(page + 4 * at, tag, 4);
    expect(html_render_html(page, 4 * count, 80, NULL, &text, &length) == wanted, tag);
    html_render_free(text);
    free(page);
}

int main(int count, char **words) {
    expect(!strcmp(html_render_version(), HTML_RENDER_VERSION), "the version");
    expect_options();
    expect_flags();
    expect_lines();
    expect_sizes();
    expect_first_version();
    expect_max_nodes();
    expect_numbers();
    expect_bad_options();
    expect_bad_arguments();
    expect_many("<ul>", 20000, HTML_RENDER_OK);
    /* past the limit of 5 million nodes */
    if (count > 1 && !strcmp(words[1], "large"))
        expect_many("<hr>", 5000001, HTML_RENDER_TOO_LARGE);
    printf("%d expectations\n", checked);
    return failed;
}
