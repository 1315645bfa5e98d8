/* Trial files: reader and writer. */
#include "layouts.h"

/* Kinds of word: bits 31 to 28. That of the shape word is the trial's. */
enum { LEVEL = 1, OFFER = 3, FIGURE = 4, END = 15 };

/* The words of a file that are still to be read. */
struct words {
    const uint8_t *at;
    size_t left;
};

/* The next word, if it is there: its kind, and its bits 27 to 0. A missing one has a kind that none has. */
static uint32_t next_kind(struct words *w, uint32_t *bits)
{
    if (w->left == 0)
        return 0;
    uint32_t word = w->at[0] | (uint32_t)w->at[1] << 8 | (uint32_t)w->at[2] << 16 | (uint32_t)w->at[3] << 24;
    w->at += 4;
    w->left--;
    *bits = word & 0xFFFFFFF;
    return word >> 28;
}

/* Whether the next word is there and of that kind. */
static int next(struct words *w, uint32_t kind, uint32_t *bits)
{
    return next_kind(w, bits) == kind;
}

static int read_level(struct words *w, struct trial *t)
{
    uint32_t bits;
    if (!next(w, LEVEL, &bits))
        return 0;
    t->a = bits >> 14;
    t->b = bits & 0x3FFF;
    return good_level(t->a, t->b);
}

static int read_shape(struct words *w, struct trial *t)
{
    uint32_t bits;
    t->kind = next_kind(w, &bits);
    const struct layout *layout = layout_of(t->kind);
    return layout != NULL && layout->read_shape(bits, t) && good_counts(t);
}

static int read_offers(struct words *w, struct trial *t)
{
    uint32_t bits;
    for (size_t i = 0; i < t->offers; i++) {
        if (!next(w, OFFER, &bits))
            return 0;
        t->codes[i] = bits & 0xFFFFFF;
        t->digits[i] = (uint8_t)(bits >> 24);
        if (!good_offer(t, i))
            return 0;
    }
    return 1;
}

static int read_figures(struct words *w, struct trial *t)
{
    uint32_t bits;
    for (size_t i = 0; i < t->offers * t->units; i++) {
        if (!next(w, FIGURE, &bits))
            return 0;
        t->figures[i] = (int32_t)(bits ^ 0x8000000) - 0x8000000; /* 28 bits, two's complement */
        if (t->figures[i] < -MOST_FIGURE)
            return 0;
    }
    return 1;
}

static int read_end(struct words *w, size_t before)
{
    uint32_t bits;
    return next(w, END, &bits) && bits == before && w->left == 0;
}

int read_trial(const uint8_t *file, size_t length, struct trial *trial)
{
    struct words w = {file, length / 4};
    struct trial t = {0};
    if (length % 4 != 0 || length > LONGEST_FILE)
        return 0;
    if (!read_level(&w, &t) || !read_shape(&w, &t) || !read_offers(&w, &t) || !read_figures(&w, &t) ||
        !read_end(&w, 2 + t.offers + t.offers * t.units))
        return 0;
    *trial = t;
    return 1;
}

/* A word of that kind; answers the place after it. */
static uint8_t *put(uint8_t *out, uint32_t kind, uint32_t bits)
{
    uint32_t word = kind << 28 | bits;
    out[0] = (uint8_t)word;
    out[1] = (uint8_t)(word >> 8);
    out[2] = (uint8_t)(word >> 16);
    out[3] = (uint8_t)(word >> 24);
    return out + 4;
}

int write_trial(const struct trial *t, uint8_t *out, size_t places, size_t *length)
{
    if (!check_trial(t))
        return 0;
    size_t n = t->offers * t->units, before = 2 + t->offers + n;
    if (places < 4 * (before + 1))
        return 0;
    out = put(out, LEVEL, (uint32_t)(t->a << 14 | t->b));
    out = put(out, (uint32_t)t->kind, layout_of(t->kind)->shape(t));
    for (size_t i = 0; i < t->offers; i++)
        out = put(out, OFFER, (uint32_t)t->digits[i] << 24 | t->codes[i]);
    for (size_t i = 0; i < n; i++)
        out = put(out, FIGURE, (uint32_t)t->figures[i] & 0xFFFFFFF);
    put(out, END, (uint32_t)before);
    *length = 4 * (before + 1);
    return 1;
}
