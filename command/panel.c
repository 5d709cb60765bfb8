/* rudignals panel: the end of a digest as the wall panel shows it, once or as long as it is looked at. */
#include "panel.h"

#include "say.h"
#include "subcommand.h"

#include <string.h>

static bool is_dash(const char *name) { return name != NULL && strcmp(name, "-") == 0; }

/* Says what is wrong with the options taken together. */
static bool goes_together(const struct show *show) {
    if (show->options.count > 1)
        say("the panel shows one file, and %d are named", show->options.count);
    else if (show->follow && is_dash(show->name))
        say("--follow: a file must be named");
    else if (show->follow && (is_dash(show->picture) || is_dash(show->page)))
        say("--follow: the %s must go to a file", is_dash(show->picture) ? "picture" : "page");
    else if (show->follow && show->options.value['o'] != NULL)
        say("--follow: a panel that is drawn again goes to a terminal, to PICTURE or to PAGE");
    else if (is_dash(show->picture) + is_dash(show->page) + show->text > 1)
        say("%s and %s would both go to standard output", show->text ? "--text" : "--svg -", is_dash(show->picture) && show->text ? "--svg -" : "--html -");
    else if (show->picture != NULL && show->page != NULL && strcmp(show->picture, show->page) == 0)
        say("--svg and --html name the same file");
    else
        return true;
    return false;
}

static int draw_once(struct show *show) {
    int status = draw_now(show, false).status;
    say_mended(label_of(show->name), &show->mended);
    return status;
}

static int run_panel(const struct options *options) {
    static struct show show;
    show.options = *options;
    show.name = options->count == 0 ? "-" : options->files[0];
    show.picture = options->value[SVG];
    show.page = options->value[HTML];
    show.text = (show.picture == NULL && show.page == NULL) || options->value[TEXT] != NULL;
    show.follow = options->value[FOLLOW] != NULL;
    show.cut = options->value[CUT] != NULL;
    if (!goes_together(&show))
        return wrong_call();
    if (!options_accepted(options)) {
        draw_refused_options(&show);
        return WRONG_CALL;
    }
    return show.follow ? follow(&show) : draw_once(&show);
}

static const int TAKES[] = {TEXT, SVG, HTML, FOLLOW, CUT, 'o', FORMATTING, SALVAGE, 0};

const struct subcommand panel_subcommand = {
    .name = "panel",
    .does = "show the last lines of formatted notes as a wall panel does",
    .arguments = "[FILE]",
    .about = "Formats FILE, or standard input (also -), and shows its end as the wall panel\n"
             "does, in 24 rows of 80 columns, the newest at the bottom.\n",
    .takes = TAKES,
    .limits = "A row that goes on with the line above has > beside it, in a picture an arrow,\n"
              "and in a window of 80 columns another colour. With --cut a line that runs past\n"
              "column 80 has + in its last column. A byte that is part of no character is\n"
              "shown as U+FFFD. What takes no column, such as a combining mark, is not shown;\n"
              "nor are blank lines at the end.\n"
              "\n"
              "Below the rows it says how many lines there are, how many of them are damaged\n"
              "or cut, how many begin above the rows, when it was drawn, and the file's name\n"
              "and last change. A window of under 80 columns or 25 rows shows only that it is\n"
              "too small.\n"
              "\n"
              "Where there is no digest, because FILE is refused or cannot be read, the\n"
              "bottom rows say so in red, between ! marks; above them is the end of the\n"
              "notes as they are. With --svg or --html, --text draws as well. A file that is\n"
              "there and is no such drawing is not written over. With --follow a drawing that\n"
              "cannot be written, because the disk is full for example, is tried again, and\n"
              "the failure is reported.\n"
              "\n"
              LIMIT,
    .statuses = "0 the digest was shown; 1 something was refused, not read or not\n"
                "written; 2 a wrong call. With --follow it is that of the last drawing",
    .draws = true,
    .run = run_panel,
};
