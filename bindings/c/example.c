/* Prints a document that calls build: a heading, a paragraph with a link and the content of a rule, and a table. */
#include "html_render.h"

#include <stdio.h>
#include <string.h>

static html_render_node element(html_render_recording *page, html_render_node parent, const char *name) {
    html_render_node made = html_render_element(page, HTML_RENDER_HTML, name, strlen(name));
    html_render_append(page, parent, made);
    return made;
}

static html_render_node text_element(html_render_recording *page, html_render_node parent, const char *name,
                                     const char *text) {
    html_render_node made = element(page, parent, name);
    html_render_append_text(page, made, text, strlen(text));
    return made;
}

/* Adds the author's rule `p::after { content: "." }`. */
static void end_paragraphs(html_render_recording *page) {
    struct html_render_rule rule = {0};
    rule.element = "p";
    rule.declares = HTML_RENDER_CONTENT;
    rule.content = ".";
    rule.origin = HTML_RENDER_ORIGIN_AUTHOR;
    rule.place = HTML_RENDER_PLACE_AFTER;
    html_render_add_rule(page, &rule);
}

int main(void) {
    html_render_recording *page = html_render_new();
    html_render_node paragraph, link, table, row;
    char *text;
    size_t length;
    enum html_render_status status;
    if (!page)
        return 1;
    text_element(page, 0, "h1", "Harbour ferries");
    paragraph = text_element(page, 0, "p", "See ");
    link = text_element(page, paragraph, "a", "the fares");
    html_render_attribute(page, link, HTML_RENDER_NO_NAMESPACE, "href", 4, "https://ferries.example", 23);
    table = element(page, element(page, 0, "table"), "tbody");
    row = element(page, table, "tr");
    text_element(page, row, "td", "To");
    text_element(page, row, "td", "Minutes");
    row = element(page, table, "tr");
    text_element(page, row, "td", "Lighthouse Point");
    text_element(page, row, "td", "20");
    html_render_set(page, HTML_RENDER_DO_DECORATE, 0, NULL);
    html_render_set(page, HTML_RENDER_LINK_FOOTNOTES, 1, NULL);
    end_paragraphs(page);
    status = html_render_text_of(page, HTML_RENDER_PLAIN, 40, &text, &length);
    if (status == HTML_RENDER_OK)
        fwrite(text, 1, length, stdout);
    else
        fprintf(stderr, "example: status %d\n", (int)status);
    html_render_free(text);
    html_render_drop(page);
    return status;
}
