#include "options.h"

#include "message.h"

#include <string.h>

#define SEE_HELP "see folgutan --help"

/* What is behind the word that is read. */
typedef struct {
    const char *word;  /* as it was given */
    const char *value; /* of --name=value or --name value; NULL: none */
} given;

static status wrong(const char *word, const char *text)
{
    message_error(word, "%s; " SEE_HELP, text);
    return STATUS_USAGE;
}

/* The word that holds the value; an empty one shows nothing, so that the option is named. */
static status wrong_value(const given *g, const char *text)
{
    return wrong(g->value[0] != '\0' ? g->value : g->word, text);
}

/* Digits alone, from `least` to `most`; goes behind them. */
static bool number(const char **at, size_t least, size_t most, size_t *out)
{
    const char *c = *at;
    size_t value = 0;
    for (; *c >= '0' && *c <= '9'; c++) {
        size_t digit = (size_t)(*c - '0');
        if (digit > most || value > (most - digit) / 10)
            return false;
        value = 10 * value + digit;
    }
    if (c == *at || value < least)
        return false;
    *at = c;
    *out = value;
    return true;
}

static bool sign(const char **at, char c)
{
    if (**at != c)
        return false;
    (*at)++;
    return true;
}

static bool whole_number(const char *text, size_t least, size_t most, size_t *out)
{
    return number(&text, least, most, out) && *text == '\0';
}

static status read_box(const given *g, options *o)
{
    const char *at = g->value;
    box b;
    if (!(number(&at, 1, OPTION_MOST_PLACE, &b.width) && sign(&at, 'x') && number(&at, 1, OPTION_MOST_PLACE, &b.height) &&
          sign(&at, '+') && number(&at, 0, OPTION_MOST_PLACE, &b.left) && sign(&at, '+') &&
          number(&at, 0, OPTION_MOST_PLACE, &b.top) && *at == '\0'))
        return wrong_value(g, "--box takes WIDTHxHEIGHT+LEFT+TOP in pixels, such as 640x480+100+50, up to 1000000 each");
    o->part.has_box = true;
    o->part.box = b;
    return STATUS_OK;
}

static status read_expect(const given *g, options *o)
{
    const char *at = g->value;
    expected e = {.known = true};
    if (!(number(&at, 1, 4096, &e.rows) && sign(&at, 'x') && number(&at, 1, 4096, &e.columns) && *at == '\0'))
        return wrong_value(g, "--expect takes ROWSxCOLUMNS, such as 16x16, 1 to 4096 each");
    o->expected = e;
    return STATUS_OK;
}

static status read_factor(const given *g, options *o)
{
    if (strcmp(g->value, "auto") == 0)
        o->factor = 0;
    else if (!whole_number(g->value, FOLGUTAN_LEAST_FACTOR, FOLGUTAN_MOST_FACTOR, &o->factor))
        return wrong_value(g, "--factor takes 2, 3, 4, 5 or auto");
    return STATUS_OK;
}

static status read_shrink(const given *g, options *o)
{
    if (!whole_number(g->value, 1, OPTION_MOST_SHRINK, &o->part.shrink))
        return wrong_value(g, "--shrink takes a number from 1 to 64");
    return STATUS_OK;
}

static status read_size(const given *g, options *o)
{
    if (!whole_number(g->value, 1, FOLGUTAN_MOST_SIZE, &o->size))
        return wrong_value(g, "--size takes a number from 1 to 24");
    return STATUS_OK;
}

static status read_overlay(const given *g, options *o)
{
    if (g->value[0] == '\0' || strcmp(g->value, "-") == 0)
        return wrong_value(g, "--overlay takes the name of a file");
    o->overlay = g->value;
    o->part.keep_whole = true;
    return STATUS_OK;
}

static status set_text(const given *g, options *o) { (void)g; o->format = FORMAT_TEXT; return STATUS_OK; }
static status set_json(const given *g, options *o) { (void)g; o->format = FORMAT_JSON; return STATUS_OK; }
static status set_csv(const given *g, options *o) { (void)g; o->format = FORMAT_CSV; return STATUS_OK; }
static status set_map(const given *g, options *o) { (void)g; o->format = FORMAT_MAP; return STATUS_OK; }
static status set_quiet(const given *g, options *o) { (void)g; o->quiet = true; return STATUS_OK; }
static status set_help(const given *g, options *o) { (void)g; o->help = true; return STATUS_OK; }
static status set_version(const given *g, options *o) { (void)g; o->version = true; return STATUS_OK; }

typedef struct {
    const char *name;
    bool has_value;
    status (*read)(const given *g, options *o);
} option;

static const option all[] = {
    {"--box", true, read_box},         {"--expect", true, read_expect}, {"--factor", true, read_factor},
    {"--shrink", true, read_shrink},   {"--size", true, read_size},     {"--overlay", true, read_overlay},
    {"--text", false, set_text},       {"--json", false, set_json},     {"--csv", false, set_csv},
    {"--map", false, set_map},         {"--quiet", false, set_quiet},   {"--help", false, set_help},
    {"--version", false, set_version},
};

static const option *named(const char *word, size_t length)
{
    for (size_t i = 0; i < sizeof all / sizeof all[0]; i++)
        if (strlen(all[i].name) == length && strncmp(all[i].name, word, length) == 0)
            return &all[i];
    return NULL;
}

/* Reads the option at words[*at], and its value, which can be the next word. */
static status read_option(size_t count, char **words, size_t *at, options *o)
{
    given g = {.word = words[*at]};
    size_t length = strcspn(g.word, "=");
    const option *found = named(g.word, length);
    if (found == NULL)
        return wrong(g.word, "no such option");
    bool joined = g.word[length] == '=';
    if (joined && !found->has_value)
        return wrong(g.word, "this option takes no value");
    if (joined)
        g.value = g.word + length + 1;
    else if (found->has_value) {
        if (*at + 1 == count)
            return wrong(g.word, "this option takes a value");
        g.value = words[++*at];
    }
    return found->read(&g, o);
}

/* What cannot be said of one word alone. */
static status checked(const options *o)
{
    size_t inputs = 0;
    if (o->file_count == 0) {
        message_error(NULL, "no picture is given; " SEE_HELP);
        return STATUS_USAGE;
    }
    for (size_t i = 0; i < o->file_count; i++)
        inputs += strcmp(o->files[i], "-") == 0;
    if (inputs > 1)
        return wrong("-", "standard input can be read once");
    if (o->overlay != NULL && o->file_count > 1)
        return wrong(o->overlay, "--overlay takes one picture alone");
    return STATUS_OK;
}

status options_read(size_t count, char **words, options *out)
{
    *out = (options){.part = {.shrink = 1}, .factor = OPTION_DEFAULT_FACTOR, .size = 1, .files = words};
    bool ended = false;
    for (size_t at = 0; at < count; at++) {
        char *word = words[at];
        if (ended || word[0] != '-' || word[1] == '\0') {
            out->files[out->file_count++] = word; /* at or before this word's own place */
        } else if (strcmp(word, "--") == 0) {
            ended = true;
        } else {
            status s = read_option(count, words, &at, out);
            if (s != STATUS_OK || out->help || out->version)
                return s;
        }
    }
    return checked(out);
}
