/* Calls every function of fordcask.h, in answers and in refusals, and prints
   every field and every buffer afterwards. */

#include <inttypes.h>
#include <stdio.h>
#include <string.h>

#include "fordcask.h"

#define SCALE 1000000
#define CARD FORDCASK_CARD_LENGTH
#define TILE FORDCASK_TILE_LENGTH

/* The card of document 01: two tiles down, one across, all chart, TIF N. */
static const char worked[] =
    "30036966400400384-0022935.07+113032.23000000000127000255000000"
    "00200100012800012801008BASE0101.IMGN";

/* Two tiles down, three across, with padding on each side, TIF Y. */
static const struct fordcask_record padded = {
    .n = 100,
    .m = -20,
    .nul = 5,
    .nus = 370,
    .nll = 250,
    .nls = 3,
    .nfl = 2,
    .nfc = 3,
    .bad = {'S', 'H', 'E', 'E', 'T', '0', '0', '7', '.', 'A', 'R', 'C'},
    .tif = 2};

/* An overview of the worked card, factor 16; two tiles down and across, TIF
   N. */
static const char overview[] =
    "30002355200025088-0035446.96+125125.71000000000255000255000000"
    "00200200012800012801008OVER0101.IMGN";

static const uint8_t *card = (const uint8_t *)worked;
static const uint8_t *overview_card = (const uint8_t *)overview;
static const struct fordcask_series charts = {SCALE, 1, 1};
static const struct fordcask_series overviews = {SCALE, 16, 1};
static uint8_t padded_card[CARD];

/* Four stored tiles of the six. */
static const uint32_t stored_index[6] = {2, 0, 4, 1, 3, 0};
static uint8_t store[4 * TILE];

/* Two corrected tiles, the second of them listed twice. */
static const uint32_t corrections[6] = {0, 2, 0, 0, 2, 1};
static uint8_t corrections_store[2 * TILE];

/* Tiles 0, 2, 3 and 4 of the six, as presence bits. */
static const uint64_t stored_bits[2] = {29, 0};

static void start(const char *name, uint32_t number, uint64_t at)
{
    printf("%s: %" PRIu32 " %" PRIu64, name, number, at);
}

static void print_zones(uint64_t length, const uint64_t *zones, size_t slots)
{
    size_t i;

    printf(" %" PRIu64 ":", length);
    for (i = 0; i < slots; i++)
        printf(" %" PRIu64, zones[i]);
    printf("\n");
}

static void print_pairs(const int64_t *pairs, size_t length,
                        const uint32_t *numbers, size_t numbers_len)
{
    size_t i;

    for (i = 0; i < length; i++)
        printf(" %" PRId64, pairs[i]);
    printf(" :");
    for (i = 0; i < numbers_len; i++)
        printf(" %" PRIu32, numbers[i]);
}

static struct fordcask_series series(uint64_t scale, uint64_t factor,
                                     uint64_t zone)
{
    struct fordcask_series s = {scale, factor, zone};

    return s;
}

static void spacing(uint64_t scale, uint64_t factor, uint64_t zone)
{
    struct fordcask_spacing s = fordcask_spacing(series(scale, factor, zone));

    start("spacing", s.number, s.at);
    printf(" %" PRIu64 " %" PRIu64 "\n", s.a, s.b);
}

static void basic_zone(int64_t lat)
{
    struct fordcask_zone z = fordcask_basic_zone(lat);

    start("basic_zone", z.number, z.at);
    printf(" %" PRIu64 "\n", z.zone);
}

static void cover(uint64_t scale, uint64_t factor, int64_t lat)
{
    struct fordcask_cover c = fordcask_cover(scale, factor, lat);

    start("cover", c.number, c.at);
    print_zones(c.length, c.zones, 6);
}

static void rectangle(uint64_t scale, uint64_t factor, int64_t south,
                      int64_t north)
{
    struct fordcask_rectangle r =
        fordcask_rectangle(scale, factor, south, north);

    start("rectangle", r.number, r.at);
    print_zones(r.length, r.zones, 18);
}

static void align(uint64_t scale, uint64_t factor, uint64_t zone, int64_t lat,
                  int64_t lon)
{
    struct fordcask_origin o =
        fordcask_align(series(scale, factor, zone), lat, lon);

    start("align", o.number, o.at);
    printf(" %" PRId64 " %" PRId64 " %" PRId64 " %" PRId64 "\n", o.n, o.m,
           o.pso, o.lso);
}

/* The total of blanks of a card. */
static void end(uint64_t blanks)
{
    printf(" %" PRIu64 "\n", blanks);
}

/* A zero byte of BAD is printed as '_'. */
static void print_card(const char *name, struct fordcask_card c)
{
    size_t i;

    start(name, c.number, c.at);
    printf(" %" PRIu64 " %" PRIu64 " %" PRId64 " %" PRId64, c.a, c.b, c.n,
           c.m);
    printf(" %" PRIu64 " %" PRIu64 " %" PRIu64 " %" PRIu64, c.nul, c.nus,
           c.nll, c.nls);
    printf(" %" PRIu64 " %" PRIu64 " ", c.nfl, c.nfc);
    for (i = 0; i < 12; i++)
        printf("%c", c.bad[i] == 0 ? '_' : c.bad[i]);
    printf(" %u", (unsigned)c.tif);
    end(c.blanks);
}

static void read_card(uint64_t scale, uint64_t factor, const uint8_t *bytes,
                      size_t length)
{
    print_card("read_card",
               fordcask_read_card(series(scale, factor, 1), bytes, length));
}

static void read_strict(const uint8_t *bytes, size_t length)
{
    print_card("read_strict", fordcask_read_strict(charts, bytes, length));
}

/* The output is filled with '#' before. */
static void write_card(uint64_t scale, uint64_t factor,
                       struct fordcask_record record, size_t length)
{
    uint8_t out[CARD + 3];
    struct fordcask_refusal r;

    memset(out, '#', sizeof out);
    r = fordcask_write_card(series(scale, factor, 1), record, out, length);
    start("write_card", r.number, r.at);
    printf(" %.*s\n", (int)sizeof out, (const char *)out);
}

static void offset(int64_t lat, int64_t lon, int64_t centre_lat,
                   int64_t centre_lon)
{
    struct fordcask_offset o =
        fordcask_offset(lat, lon, centre_lat, centre_lon);

    start("offset", o.number, o.at);
    printf(" %.3f %.3f\n", o.lat, o.lon);
}

static void place(const uint8_t *bytes, int64_t row, int64_t column)
{
    struct fordcask_place p =
        fordcask_place(charts, bytes, CARD, row, column);

    start("place", p.number, p.at);
    printf(" %" PRId64 " %" PRId64, p.row, p.column);
    end(p.blanks);
}

static void position(const uint8_t *bytes, int64_t row, int64_t column)
{
    struct fordcask_position p =
        fordcask_position(charts, bytes, CARD, row, column);

    start("position", p.number, p.at);
    printf(" %" PRId64 " %" PRId64, p.lat, p.lon);
    end(p.blanks);
}

static void corner_position(const uint8_t *bytes, int64_t row, int64_t column)
{
    struct fordcask_position p =
        fordcask_corner_position(charts, bytes, CARD, row, column);

    start("corner_position", p.number, p.at);
    printf(" %" PRId64 " %" PRId64, p.lat, p.lon);
    end(p.blanks);
}

static void pixel(const uint8_t *bytes, int64_t lat, int64_t lon)
{
    struct fordcask_pixel p =
        fordcask_pixel(charts, bytes, CARD, lat, lon);

    start("pixel", p.number, p.at);
    printf(" %" PRId64 " %" PRId64, p.row, p.column);
    end(p.blanks);
}

static void corner_pixel(const uint8_t *bytes, int64_t lat, int64_t lon)
{
    struct fordcask_pixel p =
        fordcask_corner_pixel(charts, bytes, CARD, lat, lon);

    start("corner_pixel", p.number, p.at);
    printf(" %" PRId64 " %" PRId64, p.row, p.column);
    end(p.blanks);
}

static void overview_pixel(const uint8_t *bytes, const uint8_t *over,
                           size_t length, int64_t row, int64_t column)
{
    struct fordcask_overview_pixel p = fordcask_overview_pixel(
        charts, bytes, CARD, overviews, over, length, row, column);

    start("overview_pixel", p.number, p.at);
    printf(" %" PRId64 " %" PRId64 " %" PRIu64, p.row, p.column, p.blanks);
    end(p.overview_blanks);
}

/* The marks are filled with 7 before. */
static void index_check(const uint8_t *bytes, const uint32_t *index,
                        size_t length, uint64_t count)
{
    uint8_t marks[5] = {7, 7, 7, 7, 7};
    size_t i;
    struct fordcask_verdict r = fordcask_index_check(
        charts, bytes, CARD, index, length, count, marks, 5);

    start("index_check", r.number, r.at);
    for (i = 0; i < 5; i++)
        printf(" %u", (unsigned)marks[i]);
    end(r.blanks);
}

/* fordcask_tile, then fordcask_bands, of one pixel. */
static void tile(const uint8_t *bytes, const uint32_t *index, size_t length,
                 uint64_t count, int64_t row, int64_t column)
{
    struct fordcask_tile t =
        fordcask_tile(charts, bytes, CARD, index, length, count, store,
                      (size_t)count * TILE, row, column);
    struct fordcask_bands b =
        fordcask_bands(charts, bytes, CARD, index, length, count, store,
                       (size_t)count * TILE, row, column);

    start("tile", t.number, t.at);
    printf(" %" PRIu64 " %" PRIu64 " %" PRIu64, t.stored, t.offset,
           t.length);
    end(t.blanks);
    start("bands", b.number, b.at);
    printf(" %u %u %u", (unsigned)b.red, (unsigned)b.green,
           (unsigned)b.blue);
    end(b.blanks);
}

static void window(const uint8_t *bytes, const uint32_t *index, size_t length,
                   uint64_t count, uint64_t top, uint64_t left,
                   uint64_t height, uint64_t width)
{
    struct fordcask_window w =
        fordcask_window(charts, bytes, CARD, index, length, count, top,
                        left, height, width);

    start("window", w.number, w.at);
    printf(" %" PRIu64 " %" PRIu64, w.missing, w.tile);
    end(w.blanks);
}

/* fordcask_corrected_tile, then fordcask_corrected_bands, of one pixel. */
static void corrected(const uint8_t *bytes, const uint32_t *index,
                      size_t length, uint64_t count, const uint32_t *list,
                      size_t list_length, uint64_t number, int64_t row,
                      int64_t column)
{
    struct fordcask_corrected_tile t = fordcask_corrected_tile(
        charts, bytes, CARD, index, length, count, store,
        (size_t)count * TILE, list, list_length, number, corrections_store,
        (size_t)number * TILE, row, column);
    struct fordcask_bands b = fordcask_corrected_bands(
        charts, bytes, CARD, index, length, count, store,
        (size_t)count * TILE, list, list_length, number, corrections_store,
        (size_t)number * TILE, row, column);

    start("corrected_tile", t.number, t.at);
    printf(" %" PRIu64 " %" PRIu64 " %" PRIu64 " %" PRIu64, t.source,
           t.stored, t.offset, t.length);
    end(t.blanks);
    start("corrected_bands", b.number, b.at);
    printf(" %u %u %u", (unsigned)b.red, (unsigned)b.green,
           (unsigned)b.blue);
    end(b.blanks);
}

static void corrected_window(const uint8_t *bytes, const uint32_t *index,
                             size_t length, uint64_t count,
                             const uint32_t *list, size_t list_length,
                             uint64_t height, uint64_t width)
{
    struct fordcask_window w =
        fordcask_corrected_window(charts, bytes, CARD, index, length, count,
                                  list, list_length, 2, 0, 0, height, width);

    start("corrected_window", w.number, w.at);
    printf(" %" PRIu64 " %" PRIu64, w.missing, w.tile);
    end(w.blanks);
}

/* A copy of the corrections is set, and printed afterwards. */
static void set_correction(const uint8_t *bytes, size_t length, uint64_t tile,
                           uint64_t number)
{
    uint32_t list[6];
    size_t i;
    struct fordcask_verdict r;

    memcpy(list, corrections, sizeof list);
    r = fordcask_set_correction(charts, bytes, CARD, list, length, 2, tile,
                                number);
    start("set_correction", r.number, r.at);
    for (i = 0; i < 6; i++)
        printf(" %" PRIu32, list[i]);
    end(r.blanks);
}

/* The words are 7 before. */
static void to_bits(const uint8_t *bytes, const uint32_t *index,
                    size_t length, size_t words_length)
{
    uint64_t words[2] = {7, 7};
    struct fordcask_verdict r = fordcask_to_bits(
        charts, bytes, CARD, index, length, words, words_length);

    start("to_bits", r.number, r.at);
    printf(" %" PRIu64 " %" PRIu64, words[0], words[1]);
    end(r.blanks);
}

/* The entries are 7 before. */
static void to_list(const uint8_t *bytes, const uint64_t *words,
                    size_t words_length, size_t length)
{
    uint32_t index[7] = {7, 7, 7, 7, 7, 7, 7};
    size_t i;
    struct fordcask_verdict r = fordcask_to_list(
        charts, bytes, CARD, words, words_length, index, length);

    start("to_list", r.number, r.at);
    for (i = 0; i < 7; i++)
        printf(" %" PRIu32, index[i]);
    end(r.blanks);
}

/* fordcask_bits_tile, then fordcask_bits_bands, of one pixel. */
static void bits_tile(const uint8_t *bytes, const uint64_t *words,
                      size_t words_length, uint64_t count, int64_t row,
                      int64_t column)
{
    struct fordcask_tile t =
        fordcask_bits_tile(charts, bytes, CARD, words, words_length, count,
                           store, (size_t)count * TILE, row, column);
    struct fordcask_bands b =
        fordcask_bits_bands(charts, bytes, CARD, words, words_length, count,
                            store, (size_t)count * TILE, row, column);

    start("bits_tile", t.number, t.at);
    printf(" %" PRIu64 " %" PRIu64 " %" PRIu64, t.stored, t.offset,
           t.length);
    end(t.blanks);
    start("bits_bands", b.number, b.at);
    printf(" %u %u %u", (unsigned)b.red, (unsigned)b.green,
           (unsigned)b.blue);
    end(b.blanks);
}

static void bits_window(const uint8_t *bytes, const uint64_t *words,
                        size_t words_length, uint64_t count, uint64_t top,
                        uint64_t left, uint64_t height, uint64_t width)
{
    struct fordcask_window w =
        fordcask_bits_window(charts, bytes, CARD, words, words_length, count,
                             top, left, height, width);

    start("bits_window", w.number, w.at);
    printf(" %" PRIu64 " %" PRIu64, w.missing, w.tile);
    end(w.blanks);
}

/* fordcask_corrected_bits_tile, then fordcask_corrected_bits_bands, of one
   pixel, then fordcask_corrected_bits_window over all tiles. */
static void corrected_bits(const uint64_t *words, uint64_t count,
                           size_t list_length, int64_t row, int64_t column)
{
    struct fordcask_corrected_tile t = fordcask_corrected_bits_tile(
        charts, padded_card, CARD, words, 1, count, store,
        (size_t)count * TILE, corrections, list_length, 2, corrections_store,
        2 * TILE, row, column);
    struct fordcask_bands b = fordcask_corrected_bits_bands(
        charts, padded_card, CARD, words, 1, count, store,
        (size_t)count * TILE, corrections, list_length, 2, corrections_store,
        2 * TILE, row, column);
    struct fordcask_window w = fordcask_corrected_bits_window(
        charts, padded_card, CARD, words, 1, count, corrections, list_length,
        2, 0, 0, 2, 3);

    start("corrected_bits_tile", t.number, t.at);
    printf(" %" PRIu64 " %" PRIu64 " %" PRIu64 " %" PRIu64, t.source,
           t.stored, t.offset, t.length);
    end(t.blanks);
    start("corrected_bits_bands", b.number, b.at);
    printf(" %u %u %u", (unsigned)b.red, (unsigned)b.green,
           (unsigned)b.blue);
    end(b.blanks);
    start("corrected_bits_window", w.number, w.at);
    printf(" %" PRIu64 " %" PRIu64, w.missing, w.tile);
    end(w.blanks);
}

/* Both outputs are filled with 7 before; length is that of the list. */
static void positions(int corner, size_t length)
{
    static const int64_t pixels[8] = {5, 3, 250, 370, 4, 3, 0, 384};
    int64_t out[9] = {7, 7, 7, 7, 7, 7, 7, 7, 7};
    uint32_t numbers[5] = {7, 7, 7, 7, 7};
    struct fordcask_verdict r =
        (corner ? fordcask_corner_positions : fordcask_positions)(
            charts, padded_card, CARD, pixels, length, out, 9, numbers, 5);

    start(corner ? "corner_positions" : "positions", r.number, r.at);
    print_pairs(out, 9, numbers, 5);
    end(r.blanks);
}

static void pixels(int corner, size_t length)
{
    static const int64_t places[10] = {4142899,  -897156, 0, 64800001,
                                       32400001, 0,       0, 0,
                                       4141604,  -896454};
    int64_t out[11] = {7, 7, 7, 7, 7, 7, 7, 7, 7, 7, 7};
    uint32_t numbers[6] = {7, 7, 7, 7, 7, 7};
    struct fordcask_verdict r =
        (corner ? fordcask_corner_pixels : fordcask_pixels)(
            charts, padded_card, CARD, places, length, out, 11, numbers, 6);

    start(corner ? "corner_pixels" : "pixels", r.number, r.at);
    print_pairs(out, 11, numbers, 6);
    end(r.blanks);
}

static void zones(void)
{
    spacing(50000, 1, 1);
    spacing(1000000, 1, 18);
    spacing(4999, 1, 1);
    spacing(5000, 1, 19);
    spacing(SCALE, 16, 1);
    spacing(4999, 0, 19);
    spacing(5000, 0, 19);
    spacing(5000, UINT64_MAX, 1);
    spacing(10000001, 2, 1);
    spacing(10000001, 65, 1);
    spacing(312500, 64, 1);
    spacing(312501, 64, 0);
    basic_zone(11519999);
    basic_zone(11520000);
    basic_zone(-1);
    basic_zone(32400001);
    cover(5000000, 1, 27360000);
    cover(20000000, 1, -29519999);
    cover(20000001, 1, 0);
    cover(1000000, 1, -32400001);
    cover(1000000, 5, 27360000);
    cover(1000000, 65, 32400001);
    rectangle(1000000, 1, -1, 0);
    rectangle(1000000, 1, 0, 1);
    rectangle(1000000, 1, 10800000, 11520000);
    rectangle(1000000, 1, -32400000, 32400000);
    rectangle(1000000, 1, 1, 0);
    rectangle(1000000, 1, 0, 0);
    rectangle(1000000, 5, 27360000, 27360001);
    rectangle(1000000, 0, 32400001, 0);
    align(SCALE, 1, 1, 4143222, -897506);
    align(SCALE, 1, 1, 0, 64800000);
    align(SCALE, 1, 9, 0, 0);
    align(SCALE, 1, 1, 0, -64800001);
    align(9999, 1, 0, 0, 0);
    align(10000, 1, 0, 0, 0);
    align(10000, 1, 1, 4143222, -897506);
    align(SCALE, 16, 1, 4143223, -897507);
    align(9999, 65, 0, 0, 0);
    align(10000, 65, 0, 0, 0);
    offset(5, 64800000, 7, -1);
    offset(-32400000, 0, 32400000, 1);
    offset(0, 0, 0, 64800001);
}

static void cards(void)
{
    struct fordcask_record record = padded;
    uint8_t damaged[CARD];

    read_card(SCALE, 1, card, CARD);
    read_card(SCALE, 1, card, CARD - 1);
    memcpy(damaged, card, CARD);
    damaged[93] = '_';
    read_card(SCALE, 1, damaged, CARD);
    write_card(SCALE, 1, record, CARD + 3);
    write_card(SCALE, 1, record, CARD - 1);
    record.tif = 0;
    write_card(SCALE, 1, record, CARD);
    record.nfc = 1000;
    write_card(SCALE, 1, record, CARD);
    write_card(9999, 1, padded, CARD - 1);
    write_card(9999, 1, padded, CARD);
    write_card(10000, 1, padded, CARD);
    read_card(9999, 1, card, CARD);
    fordcask_write_card(charts, padded, padded_card, CARD);
    read_card(SCALE, 1, padded_card, CARD);
    read_card(SCALE, 16, overview_card, CARD);
    read_card(SCALE, 1, overview_card, CARD);
    read_card(SCALE, 0, overview_card, CARD - 1);
    record = padded;
    record.n = 7;
    record.m = -2;
    write_card(SCALE, 16, record, CARD);
    write_card(SCALE, 16, padded, CARD);
}

static void grid(void)
{
    place(card, 1, 1);
    place(padded_card, 0, 383);
    place(padded_card, 256, 0);
    position(card, 0, 0);
    position(card, 1, 1);
    position(card, 255, 127);
    position(card, 256, 0);
    position(padded_card, 4, 3);
    corner_position(card, 0, 0);
    corner_position(card, 1, 1);
    corner_position(card, 255, 127);
    corner_position(card, 256, 0);
    corner_position(padded_card, 4, 3);
    pixel(card, 4142737, -896981);
    pixel(card, 4142899, -897156);
    pixel(card, 32400001, 0);
    pixel(padded_card, 4142899, -897156);
    corner_pixel(card, 4142899, -897156);
    corner_pixel(card, 32400001, 0);
    corner_pixel(padded_card, 4142899, -897156);
    overview_pixel(card, overview_card, CARD, 255, 127);
    overview_pixel(padded_card, overview_card, CARD, 4, 3);
    overview_pixel(padded_card, overview_card, CARD, 256, 0);
    overview_pixel(card, overview_card, CARD - 1, 256, 0);
    overview_pixel(card, card, CARD, 0, 0);
    positions(0, 8);
    positions(0, 7);
    positions(1, 8);
    positions(1, 7);
    pixels(0, 10);
    pixels(0, 9);
    pixels(1, 10);
    pixels(1, 9);
}

static void tiles(void)
{
    static const uint32_t spoiled[6] = {1, 0, 3, 2, 5, 3};
    static const uint32_t unnamed[6] = {1, 0, 0, 0, 4, 2};
    size_t i;

    /* 60 for each tile, 20 for each band, 4 for each row and 1 for each
       column, both modulo 4 */
    for (i = 0; i < sizeof store; i++)
        store[i] = (uint8_t)(60 * (i / TILE) + 20 * (i % TILE / 16384) +
                             4 * (i / 128 % 4) + i % 4);

    index_check(padded_card, stored_index, 6, 4);
    index_check(padded_card, spoiled, 6, 4);
    index_check(padded_card, unnamed, 6, 4);
    index_check(padded_card, stored_index, 5, 4);
    index_check(card, stored_index, 0, 2);
    tile(padded_card, stored_index, 6, 4, 6, 259);
    tile(padded_card, stored_index, 6, 4, 131, 3);
    tile(padded_card, stored_index, 6, 4, 5, 128);
    tile(padded_card, stored_index, 6, 4, 5, 371);
    tile(padded_card, spoiled, 6, 4, 250, 129);
    tile(card, stored_index, 0, 2, 255, 127);
    tile(card, stored_index, 0, 1, 0, 0);
    window(padded_card, stored_index, 6, 4, 0, 0, 2, 3);
    window(padded_card, stored_index, 6, 4, 1, 0, 1, 2);
    window(padded_card, stored_index, 6, 4, 1, 1, 1, 3);
    window(padded_card, spoiled, 6, 4, 1, 0, 1, 3);
    window(card, stored_index, 0, 2, 0, 0, 2, 1);
}

static void corrected_tiles(void)
{
    static const uint32_t above[6] = {0, 3, 0, 0, 3, 0};
    size_t i;

    /* 120 more than the store has in its first two tiles */
    for (i = 0; i < sizeof corrections_store; i++)
        corrections_store[i] = (uint8_t)(store[i] + 120);

    corrected(padded_card, stored_index, 6, 4, corrections, 6, 2, 6, 259);
    corrected(padded_card, stored_index, 6, 4, corrections, 6, 2, 5, 128);
    corrected(padded_card, stored_index, 6, 4, corrections, 6, 2, 250, 129);
    corrected(padded_card, stored_index, 6, 4, corrections, 6, 2, 250, 370);
    corrected(padded_card, stored_index, 6, 4, above, 6, 2, 5, 128);
    corrected(padded_card, stored_index, 6, 4, above, 6, 2, 250, 370);
    corrected(padded_card, stored_index, 6, 4, above, 6, 2, 4, 128);
    corrected(padded_card, stored_index, 6, 4, corrections, 5, 2, 5, 128);
    corrected(card, stored_index, 0, 2, corrections, 2, 2, 255, 127);
    corrected(card, stored_index, 0, 2, corrections, 0, 2, 255, 127);
    corrected_window(padded_card, stored_index, 6, 4, corrections, 6, 2, 3);
    corrected_window(padded_card, stored_index, 6, 4, above, 6, 2, 3);
    corrected_window(padded_card, stored_index, 6, 4, corrections, 6, 3, 3);
    corrected_window(padded_card, stored_index, 6, 4, corrections, 5, 2, 3);
    corrected_window(card, stored_index, 0, 2, above, 2, 2, 1);
    set_correction(padded_card, 6, 0, 2);
    set_correction(padded_card, 6, 5, 0);
    set_correction(padded_card, 6, 5, 3);
    set_correction(padded_card, 6, 6, 1);
    set_correction(padded_card, 5, 0, 1);
}

static void bits(void)
{
    static const uint32_t in_order[6] = {1, 0, 2, 3, 4, 0};
    static const uint64_t stray[1] = {29 + 64};

    to_bits(padded_card, in_order, 6, 1);
    to_bits(padded_card, stored_index, 6, 1);
    to_bits(padded_card, in_order, 6, 2);
    to_bits(padded_card, in_order, 5, 1);
    to_bits(card, in_order, 0, 0);
    to_bits(card, in_order, 0, 1);
    to_list(padded_card, stored_bits, 1, 6);
    to_list(padded_card, stray, 1, 6);
    to_list(padded_card, stored_bits, 2, 6);
    to_list(padded_card, stored_bits, 1, 7);
    to_list(card, stored_bits, 0, 0);
    bits_tile(padded_card, stored_bits, 1, 4, 6, 259);
    bits_tile(padded_card, stored_bits, 1, 4, 131, 3);
    bits_tile(padded_card, stored_bits, 1, 4, 5, 128);
    bits_tile(padded_card, stored_bits, 1, 4, 5, 371);
    bits_tile(padded_card, stored_bits, 1, 3, 250, 129);
    bits_tile(padded_card, stray, 1, 4, 0, 384);
    bits_tile(padded_card, stored_bits, 2, 4, 6, 259);
    bits_tile(card, stored_bits, 0, 2, 255, 127);
    bits_window(padded_card, stored_bits, 1, 4, 0, 0, 2, 3);
    bits_window(padded_card, stored_bits, 1, 4, 1, 0, 1, 2);
    bits_window(padded_card, stored_bits, 1, 3, 1, 0, 1, 3);
    bits_window(padded_card, stored_bits, 1, 4, 1, 1, 1, 3);
    bits_window(padded_card, stray, 1, 4, 1, 1, 1, 3);
    bits_window(card, stored_bits, 0, 2, 0, 0, 2, 1);
    corrected_bits(stored_bits, 4, 6, 5, 128);
    corrected_bits(stored_bits, 4, 6, 131, 3);
    corrected_bits(stray, 4, 5, 5, 128);
    corrected_bits(stray, 4, 6, 0, 384);
}

/* Blanks for the leading zeros of each number. */
static void fill(uint8_t *bytes)
{
    static const size_t numbers[10][2] = {{1, 8},  {9, 8},  {38, 6}, {44, 6},
                                          {50, 6}, {56, 6}, {62, 3}, {65, 3},
                                          {68, 6}, {74, 6}};
    size_t i, j;

    for (i = 0; i < 10; i++)
        for (j = 0; j + 1 < numbers[i][1] && bytes[numbers[i][0] + j] == '0';
             j++)
            bytes[numbers[i][0] + j] = ' ';
}

/* The same card with blanks, which is asked as it was without. */
static void blanks(void)
{
    uint8_t filled_overview[CARD];

    read_strict(padded_card, CARD);
    fill(padded_card);
    read_card(SCALE, 1, padded_card, CARD);
    read_card(SCALE, 2, padded_card, CARD);
    read_strict(padded_card, CARD);
    place(padded_card, 0, 383);
    place(padded_card, 256, 0);
    position(padded_card, 5, 3);
    position(padded_card, 4, 3);
    corner_position(padded_card, 5, 3);
    corner_position(padded_card, 4, 3);
    pixel(padded_card, 4141604, -896454);
    pixel(padded_card, 4142899, -897156);
    corner_pixel(padded_card, 4141604, -896454);
    corner_pixel(padded_card, 32400001, 0);
    memcpy(filled_overview, overview_card, CARD);
    fill(filled_overview);
    overview_pixel(padded_card, overview_card, CARD, 5, 3);
    overview_pixel(card, filled_overview, CARD, 5, 3);
    overview_pixel(padded_card, filled_overview, CARD, 5, 3);
    overview_pixel(padded_card, filled_overview, CARD, 4, 3);
    positions(0, 8);
    positions(0, 7);
    positions(1, 8);
    pixels(0, 10);
    pixels(1, 10);
    pixels(1, 9);
    index_check(padded_card, stored_index, 6, 4);
    index_check(padded_card, stored_index, 5, 4);
    tile(padded_card, stored_index, 6, 4, 6, 259);
    tile(padded_card, stored_index, 6, 4, 5, 128);
    window(padded_card, stored_index, 6, 4, 1, 0, 1, 2);
    window(padded_card, stored_index, 6, 4, 1, 1, 1, 3);
    corrected(padded_card, stored_index, 6, 4, corrections, 6, 2, 5, 128);
    corrected(padded_card, stored_index, 6, 4, corrections, 6, 2, 4, 128);
    corrected_window(padded_card, stored_index, 6, 4, corrections, 6, 2, 3);
    corrected_window(padded_card, stored_index, 6, 4, corrections, 6, 3, 3);
    set_correction(padded_card, 6, 0, 2);
    set_correction(padded_card, 6, 6, 1);
}

int main(void)
{
    zones();
    cards();
    grid();
    tiles();
    corrected_tiles();
    bits();
    blanks();
    return 0;
}
