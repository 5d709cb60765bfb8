/* The panel as a page for a browser that fills a wall: one file, which reads itself anew and tells when it is old. */
#include "panel.h"

/* In seconds: how often the page is read anew, and how old its drawing may be. */
enum { EVERY = 3, OLD = 120 };

const char WALL_HEAD[] = "<!doctype html>\n<!-- a wall of rudignals -->\n";

static void put_lines(FILE *out, const char *const *lines) {
    for (; *lines != NULL; lines++)
        fputs(*lines, out);
}

/* One style and one script, by their hashes, and the page itself as a frame; nothing else is loaded. The file's own origin is none that a policy
 * could name, so its scheme is. */
static void put_head(FILE *out, const struct panel *panel) {
    fprintf(out,
            "%s<html lang=en>\n<meta charset=utf-8>\n"
            "<meta http-equiv=Content-Security-Policy content=\"default-src 'none'; style-src 'sha256-%s'; script-src 'sha256-%s'; frame-src 'self' file:; "
            "base-uri 'none'; form-action 'none'\">\n"
            "<meta name=viewport content='width=device-width, initial-scale=1'>\n<title>",
            WALL_HEAD, WALL_STYLE_HASH, WALL_SCRIPT_HASH);
    put_below_escaped(out, panel, COUNTED);
    fprintf(out, "</title>\n<noscript><meta http-equiv=refresh content=%d></noscript>\n<style>", EVERY);
    put_lines(out, WALL_STYLE);
    fputs("</style>\n<script>", out);
    put_lines(out, WALL_SCRIPT);
    fputs("</script>\n", out);
}

void draw_page(FILE *out, const struct panel *panel) {
    put_head(out, panel);
    fprintf(out, "<body data-drawn=%lld data-every=%d data-old=%d>\n", (long long)panel->drawn, EVERY, OLD);
    draw_shapes(out, panel, NULL);
    fputs("<p id=old role=alert><span><strong>NOT DRAWN SINCE <time id=since></time></strong><small>There may be newer notes; what is below is old.</small></span></p>\n"
          "<noscript><p>Script is off: this page cannot tell when it is old.</p></noscript>\n"
          "</body>\n</html>\n",
          out);
}
