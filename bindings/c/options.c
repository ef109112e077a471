/* Prints a page in KOI8-R on standard input, with targets of links resolved against the page's address. */
#include <html_render.h>
#include <stdio.h>

int main(void) {
    static char page[1 << 20];
    size_t length, page_length = fread(page, 1, sizeof page, stdin);
    struct html_render_options options = {sizeof options, 0};
    char *text;
    options.charset = "koi8-r";
    options.base = "https://ferries.example/";
    if (html_render_html(page, page_length, 80, &options, &text, &length) != HTML_RENDER_OK)
        return 1;
    fwrite(text, 1, length, stdout);
    html_render_free(text);
    return 0;
}
