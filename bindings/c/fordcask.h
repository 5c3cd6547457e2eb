/* fordcask.h: scanned charts in the ARC raster system.

   The library gives the zones and their pixel spacing, reads and writes image
   cards of 98 bytes, turns pixels of an image into positions and back, and
   looks up stored tiles, by an index or by presence bits, and corrections
   beside them. The archive is for x86-64 Linux.

   Each function answers or refuses, whatever numbers and bytes it is handed,
   in buffers as below. Nothing is kept between calls and no memory is
   allocated.

   A buffer is a pointer and a length in elements. The pointer is not NULL and
   is aligned for its elements; it points to that many elements. Where the
   length is 0 any aligned address but NULL will do. Buffers lent to one call
   do not overlap, save two that are only read. A refusal leaves every buffer
   unchanged, save the marks of fordcask_index_check.

   Angles are whole hundredths of an arc-second: latitude
   -32400000..32400000, north positive; longitude -64800000..64800000, east
   positive. A scale is the S of 1:S. An overview has a factor k, and its
   spacing is that of scale 1:(S x k); a chart has the factor 1. A range x..y
   has both its ends. What lies outside a range named below is refused.

   Pixels and positions are asked for in one of two pairs. In the centre pair
   a pixel's position is its centre's, and a position gives the pixel that
   contains it: a pixel's north and west edges belong to it, its south and east
   edges do not. In the corner pair a pixel's position is its upper left
   corner's, and a position gives the pixel whose corner is nearest. The centre
   pair is meant where no name says "corner". A position of one pair handed to
   the other carries no promise.

   In a card, blanks (0x20) may stand before the first digit of ARV, BRV, NUL,
   NUS, NLL, NLS, NFL, NFC, PNC and PNL; one of blanks alone is refused with 7,
   and so is a blank after a digit or in any other subfield but TIF, where it
   is 8. Each answer on a card has the total of such blanks in `blanks`, 0..37;
   like every value it is 0 in a refusal, the card's own or the question's. A
   list that is answered has it also where single entries are refused. Writing
   uses zeros.

   This header breaks callers of earlier ones, in three ways:
   - The four functions fordcask_position, fordcask_pixel, fordcask_positions
     and fordcask_pixels kept their names and now answer in the centre pair.
     Nothing tells the compiler. Who needs the answers as they were calls
     fordcask_corner_position, fordcask_corner_pixel, fordcask_corner_positions
     and fordcask_corner_pixels, which answer as those did. Positions that were
     kept from before are the corner pair's.
   - Each function that took a scale takes the factor too. Where scale and zone
     were handed in, that is a struct fordcask_series by value; fordcask_cover
     and fordcask_rectangle take the factor right after the scale. With the
     factor 1 each answers as before the factor.
   - Each block answered on a card ends with `blanks`, so it has grown: what
     was compiled with an older header still links and goes wrong, and must be
     compiled again. The five functions that answered a struct
     fordcask_refusal on a card (fordcask_index_check and those on lists)
     answer a struct fordcask_verdict, and fordcask_overview_pixel a struct
     fordcask_overview_pixel, with the totals of both cards. Cards that were
     refused with 7 for such blanks alone are read; fordcask_read_strict still
     refuses them.

   A and B are the pixels in the circle along a parallel and along a meridian.
   A tile is 128 by 128 pixels. The chart is a rectangle of the tiles' pixels;
   the rest is padding. Subfields of a card named below:

      ARV, BRV   A and B
      LSO        longitude of the origin, the tiles' upper left corner,
                 +-DDDMMSS.SS
      PSO        latitude of the origin, +-DDMMSS.SS
      NUL, NLL   the chart's top and bottom row
      NLS, NUS   the chart's left and right column
      NFL, NFC   tiles down and across
      BAD        the name of the image
      TIF        Y where the image has a tile index, else N

   Each answer starts with `number` and `at`. number 0 means answered. Else it
   is the refusal's number, `at` is its place, and all other fields are 0.

      1   scale not 5000..20000000, or scale x factor above 20000000
      2   zone not 1..18
      3   zone 9 or 18 where a non-polar zone is needed
      4   latitude outside its range
      5   longitude outside its range
      6   card not 98 bytes; output under 98; index, words, count, marks,
          store or list of wrong length
      7   a byte of a subfield of the wrong kind
      8   right kind, wrong value: a constant, minutes or seconds 60 or more,
          angle outside its range, minus zero, NFL or NFC not 1..999, TIF
      9   ARV or BRV not that of scale, factor and zone
     10   origin not on the tile grid or outside it
     11   an extent broken
     12   pixel outside the tiles on any side; top + height above NFL or
          left + width above NFC; tile not 0..NFL x NFC - 1
     13   pixel in padding
     14   tile not stored
     15   index entry, or number by presence bits, above the count; index entry
          repeated, or a stored tile never named; correction, in the list or
          to be set, above its count
     16   south edge not below north edge
     17   factor not 1..64
     20   index not in reading order, in converting it to presence bits
     21   presence bit set past the last tile
     24   scale 5000..9999, a town scale, in writing and alignment alone

   The place is the subfield's offset in the card for 7 and 8. For 15 it is
   the entry, of the index or of the corrections, counted from 0, by presence
   bits the tile, or the index length where a stored tile is never named. Else
   it is 0.

   To link: bindings/archive makes target/staticlib/libfordcask.a; then
   cc program.c -Ibindings/c target/staticlib/libfordcask.a */

#ifndef FORDCASK_H
#define FORDCASK_H

#include <stddef.h>
#include <stdint.h>

#ifdef __cplusplus
extern "C" {
#endif

#define FORDCASK_CARD_LENGTH 98
#define FORDCASK_TILE_LENGTH 49152

/* What is stated beside a card. */
struct fordcask_series {
    uint64_t scale;  /* the S of 1:S, 5000..20000000 */
    uint64_t factor; /* 1..64, 1 for a chart; scale x factor at most
                        20000000 */
    uint64_t zone;   /* 1..18 */
};

/* A refusal alone. */
struct fordcask_refusal {
    uint32_t number;
    uint64_t at;
};

/* What is answered on a card beside the buffers. */
struct fordcask_verdict {
    uint32_t number;
    uint64_t at;
    uint64_t blanks; /* the total of blanks of the card, 0..37 */
};

/* A and B, multiples of 512. */
struct fordcask_spacing {
    uint32_t number;
    uint64_t at;
    uint64_t a, b;
};

/* A zone, 1..18. */
struct fordcask_zone {
    uint32_t number;
    uint64_t at;
    uint64_t zone;
};

/* A list of 1..6 zones; slots past the length are 0. */
struct fordcask_cover {
    uint32_t number;
    uint64_t at;
    uint64_t length;
    uint64_t zones[6];
};

/* A list of 1..18 zones; slots past the length are 0. */
struct fordcask_rectangle {
    uint32_t number;
    uint64_t at;
    uint64_t length;
    uint64_t zones[18];
};

/* An origin and the angles a card stores for it. */
struct fordcask_origin {
    uint32_t number;
    uint64_t at;
    int64_t n;   /* tiles north of the Equator, -B/512..B/512 */
    int64_t m;   /* tiles east of the zero meridian, -A/256..A/256 */
    int64_t pso; /* PSO in hundredths of an arc-second, -32400000..32400000 */
    int64_t lso; /* LSO in hundredths of an arc-second, -64800000..64800000 */
};

/* An accepted card. */
struct fordcask_card {
    uint32_t number;
    uint64_t at;
    uint64_t a, b;   /* A and B of the card's scale, factor and zone */
    int64_t n;       /* origin, tiles north of the Equator, -B/512..B/512 */
    int64_t m;       /* origin, tiles east of the zero meridian,
                        -A/256..A/256 */
    uint64_t nul;    /* NUL, the chart's top row, 0..nll */
    uint64_t nus;    /* NUS, the chart's right column, below 128 x nfc */
    uint64_t nll;    /* NLL, the chart's bottom row, below 128 x nfl */
    uint64_t nls;    /* NLS, the chart's left column, 0..nus */
    uint64_t nfl;    /* NFL, tiles down, 1..999, n - nfl not below -B/512 */
    uint64_t nfc;    /* NFC, tiles across, 1..999 and at most A/128 */
    uint8_t bad[12]; /* BAD, the name: eight capital letters or digits, a dot,
                        three more; no zero byte at the end */
    uint8_t tif;     /* TIF, 1 for Y, 0 for N */
    uint64_t blanks; /* the total of blanks of the card, 0..37 */
};

/* A record to be written. */
struct fordcask_record {
    int64_t n;       /* origin, tiles north of the Equator, -B/512..B/512 */
    int64_t m;       /* origin, tiles east of the zero meridian,
                        -A/256..A/256 */
    uint64_t nul;    /* NUL, the chart's top row, 0..nll */
    uint64_t nus;    /* NUS, the chart's right column, below 128 x nfc */
    uint64_t nll;    /* NLL, the chart's bottom row, below 128 x nfl */
    uint64_t nls;    /* NLS, the chart's left column, 0..nus */
    uint64_t nfl;    /* NFL, tiles down, 1..999, n - nfl not below -B/512 */
    uint64_t nfc;    /* NFC, tiles across, 1..999 and at most A/128 */
    uint8_t bad[12]; /* BAD, the name: eight capital letters or digits, a dot,
                        three more */
    uint8_t tif;     /* TIF, 0 for N, any other number for Y */
};

/* A place of the zone grid. */
struct fordcask_place {
    uint32_t number;
    uint64_t at;
    int64_t row;    /* rows north of the Equator, above -B/4, at most B/4 */
    int64_t column; /* columns east of the zero meridian, 0..A - 1 */
    uint64_t blanks; /* the total of blanks of the card, 0..37 */
};

/* A position, hundredths of an arc-second. */
struct fordcask_position {
    uint32_t number;
    uint64_t at;
    int64_t lat; /* -32400000..32400000 */
    int64_t lon; /* -64800000..64799999; the date line is -64800000 */
    uint64_t blanks; /* the total of blanks of the card, 0..37 */
};

/* A pixel of a card's chart; row 0 is the top of its tiles, column 0 the
   left. */
struct fordcask_pixel {
    uint32_t number;
    uint64_t at;
    int64_t row;    /* NUL..NLL */
    int64_t column; /* NLS..NUS */
    uint64_t blanks; /* the total of blanks of the card, 0..37 */
};

/* A pixel of the chart of an overview's card. */
struct fordcask_overview_pixel {
    uint32_t number;
    uint64_t at;
    int64_t row;              /* NUL..NLL of the overview's card */
    int64_t column;           /* NLS..NUS of the overview's card */
    uint64_t blanks;          /* the total of blanks of the chart's card,
                                 0..37 */
    uint64_t overview_blanks; /* the total of blanks of the overview's card,
                                 0..37 */
};

/* Position minus centre in whole hundredths of an arc-second, exact. */
struct fordcask_offset {
    uint32_t number;
    uint64_t at;
    double lat; /* -64800000..64800000 */
    double lon; /* the short way, -64800000..64799999 */
};

/* A stored tile. Its bytes are store[offset] to store[offset + length - 1]:
   red, green, blue, each 128 rows of 128. */
struct fordcask_tile {
    uint32_t number;
    uint64_t at;
    uint64_t stored; /* its number among the stored tiles, 1..count */
    uint64_t offset; /* 49152 x (stored - 1) */
    uint64_t length; /* 49152 */
    uint64_t blanks; /* the total of blanks of the card, 0..37 */
};

/* A tile from whichever of two stores holds it. Its bytes are length bytes
   from offset on: of the base store where source is 0, of the corrections
   store where it is 1. In a refusal source is 0, like every value. */
struct fordcask_corrected_tile {
    uint32_t number;
    uint64_t at;
    uint64_t source; /* 0 the base store, 1 the corrections store */
    uint64_t stored; /* its number in that store, 1..count or 1..corrected */
    uint64_t offset; /* 49152 x (stored - 1) */
    uint64_t length; /* 49152 */
    uint64_t blanks; /* the total of blanks of the card, 0..37 */
};

/* The three band values of a pixel, 0..255 each. */
struct fordcask_bands {
    uint32_t number;
    uint64_t at;
    uint8_t red, green, blue;
    uint64_t blanks; /* the total of blanks of the card, 0..37 */
};

/* missing 1: tile is the first missing one, by its number from 0 in the
   image, 0..NFL x NFC - 1. missing 0: none is missing, or the call was
   refused. */
struct fordcask_window {
    uint32_t number;
    uint64_t at;
    uint64_t missing, tile;
    uint64_t blanks; /* the total of blanks of the card, 0..37 */
};

/* A and B of a zone at a scale and a factor, the polar zones 9 and 18 too.
   Refuses 1, 17, 1 (scale x factor), 2. */
struct fordcask_spacing fordcask_spacing(struct fordcask_series series);

/* The basic zone of a latitude. lat in hundredths of an arc-second,
   -32400000..32400000. Refuses 4. */
struct fordcask_zone fordcask_basic_zone(int64_t lat);

/* The zones covering a latitude, the basic zone first, then equatorward.
   scale and factor as in struct fordcask_series; lat in hundredths of an
   arc-second, -32400000..32400000. Refuses 1, 17, 1, 4. */
struct fordcask_cover fordcask_cover(uint64_t scale, uint64_t factor,
                                     int64_t lat);

/* The zones that share a stretch of latitude of more than zero height with
   the rectangle from south to north, in ascending number; latitude is a
   continuous line, and a zone's overlap belongs to it. scale and factor as in
   struct fordcask_series; south and north in hundredths of an arc-second,
   latitude -32400000..32400000, south below north.
   Refuses 1, 17, 1, 4 (south), 4 (north), 16. */
struct fordcask_rectangle fordcask_rectangle(uint64_t scale, uint64_t factor,
                                             int64_t south, int64_t north);

/* The origin for an upper left point. The scale is 10000..20000000, 24 for
   5000..9999 whatever the factor; the zone is not 9 or 18; lat and lon in
   hundredths of an arc-second, latitude -32400000..32400000, longitude
   -64800000..64800000. Refuses 1, 24, 17, 1, 2, 3, 4, 5. */
struct fordcask_origin fordcask_align(struct fordcask_series series,
                                      int64_t lat, int64_t lon);

/* Reads a card. The zone is not 9 or 18; card_len 98. Refuses 1, 17, 1, 2, 3,
   6, then each subfield from left to right with 7 before 8, then 9, 10, 11. */
struct fordcask_card fordcask_read_card(struct fordcask_series series,
                                        const uint8_t *card, size_t card_len);

/* The same with no blank before a digit: such a blank is 7 at its subfield,
   which comes before that subfield's 8, before 7 and 8 of every later one and
   before 9, 10 and 11. A card in which none stands is answered as by
   fordcask_read_card; blanks is 0. */
struct fordcask_card fordcask_read_strict(struct fordcask_series series,
                                          const uint8_t *card,
                                          size_t card_len);

/* Writes a card into the first 98 bytes of out; the rest stays. The scale is
   10000..20000000, 24 for 5000..9999 whatever the factor; the zone is not 9 or
   18; the record's ranges are at struct fordcask_record; out_len 98 or more.
   Refuses 1, 24, 17, 1, 2, 3, 6, 8 at 62 (NFL), 8 at 65 (NFC), 7 at 85 (BAD),
   10, 11. */
struct fordcask_refusal fordcask_write_card(struct fordcask_series series,
                                            struct fordcask_record record,
                                            uint8_t *out, size_t out_len);

/* The offset of a position from a centre. All four in hundredths of an
   arc-second, latitude -32400000..32400000, longitude -64800000..64800000.
   Refuses 4, 5 for the position, then 4, 5 for the centre. */
struct fordcask_offset fordcask_offset(int64_t lat, int64_t lon,
                                       int64_t centre_lat, int64_t centre_lon);

/* Questions on a card, with what is stated beside it: the zone is not 9 or 18;
   card_len 98. Each gives the refusals of fordcask_read_card first, then its
   own, which are named at the function. */

/* The zone grid place of a pixel of the tiles, padding included. row
   0..128 x NFL - 1; column 0..128 x NFC - 1. Refuses 12. */
struct fordcask_place fordcask_place(struct fordcask_series series,
                                     const uint8_t *card, size_t card_len,
                                     int64_t row, int64_t column);

/* The position of the centre of a pixel of the chart, half a pixel south and
   east of its corner, to the nearest hundredth of an arc-second. row
   0..128 x NFL - 1 and column 0..128 x NFC - 1, else 12; row NUL..NLL and
   column NLS..NUS, else 13. Refuses 12, 13. */
struct fordcask_position fordcask_position(struct fordcask_series series,
                                           const uint8_t *card,
                                           size_t card_len, int64_t row,
                                           int64_t column);

/* The same of the pixel's upper left corner: the corner pair. Refuses 12,
   13. */
struct fordcask_position fordcask_corner_position(struct fordcask_series series,
                                                  const uint8_t *card,
                                                  size_t card_len, int64_t row,
                                                  int64_t column);

/* The pixel of the chart that contains a position. lat and lon in hundredths
   of an arc-second, latitude -32400000..32400000, longitude
   -64800000..64800000. Latitude -32400000 lies in no pixel: 12. Refuses 4, 5,
   12, 13. */
struct fordcask_pixel fordcask_pixel(struct fordcask_series series,
                                     const uint8_t *card, size_t card_len,
                                     int64_t lat, int64_t lon);

/* The pixel of the chart whose upper left corner is nearest to a position: the
   corner pair. lat and lon as for fordcask_pixel. Refuses 4, 5, 12, 13. */
struct fordcask_pixel fordcask_corner_pixel(struct fordcask_series series,
                                            const uint8_t *card,
                                            size_t card_len, int64_t lat,
                                            int64_t lon);

/* The overview pixel of a chart's pixel: the pixel of the overview's card at
   the position of pixel (row, column) of the chart's card, both in the corner
   pair. series and card are the chart's, overview_series and overview_card the
   overview's; the two need not fit. row 0..128 x NFL - 1 and column
   0..128 x NFC - 1 of the chart's card, else 12; row NUL..NLL and column
   NLS..NUS, else 13; the pixel answered has the same ranges on the overview's
   card. Refuses what reading the chart's card refuses, then what reading the
   overview's card refuses, then 12, 13 of the chart's card, then 12, 13 of the
   overview's; number and place do not tell which card was refused. */
struct fordcask_overview_pixel
fordcask_overview_pixel(struct fordcask_series series, const uint8_t *card,
                        size_t card_len, struct fordcask_series overview_series,
                        const uint8_t *overview_card, size_t overview_card_len,
                        int64_t row, int64_t column);

/* Checks that each number 1..count occurs exactly once in the index. With TIF
   Y the index has NFL x NFC entries in reading order, 0 for a tile not stored;
   with N it is empty. index is not NULL, also for the empty index of a card
   with TIF N.
   count is 0..NFL x NFC, and NFL x NFC with N. marks has at least count
   elements: mark k - 1 becomes 1 if k occurs before the refused entry
   (anywhere, if none is refused), else 0; with N all become 1. Marks past the
   count stay; all stay where the card or a length is refused.
   Refuses 6, 15. */
struct fordcask_verdict fordcask_index_check(struct fordcask_series series,
                                             const uint8_t *card,
                                             size_t card_len,
                                             const uint32_t *index,
                                             size_t index_len, uint64_t count,
                                             uint8_t *marks, size_t marks_len);

/* The stored tile of a pixel of the chart. index and count as for
   fordcask_index_check: index is not NULL, also for the empty index of a card
   with TIF N; the store has exactly count x 49152 bytes; row NUL..NLL, column
   NLS..NUS. Refuses 6, 12, 13, 14, 15. */
struct fordcask_tile fordcask_tile(struct fordcask_series series,
                                   const uint8_t *card, size_t card_len,
                                   const uint32_t *index, size_t index_len,
                                   uint64_t count, const uint8_t *store,
                                   size_t store_len, int64_t row,
                                   int64_t column);

/* The band values of a pixel of the chart. index and count as for
   fordcask_index_check: index is not NULL, also for the empty index of a card
   with TIF N; the store has exactly count x 49152 bytes; row NUL..NLL, column
   NLS..NUS. Refuses 6, 12, 13, 14, 15. */
struct fordcask_bands fordcask_bands(struct fordcask_series series,
                                     const uint8_t *card, size_t card_len,
                                     const uint32_t *index, size_t index_len,
                                     uint64_t count, const uint8_t *store,
                                     size_t store_len, int64_t row,
                                     int64_t column);

/* The first tile not stored in a window, in reading order. index and count as
   for fordcask_index_check: index is not NULL, also for the empty index of a
   card with TIF N. top, left, height and width count tiles: top + height at
   most NFL, left + width at most NFC; an empty window has no missing tile.
   Refuses 6, 12, then 15 where an entry above the count comes before any
   missing tile. */
struct fordcask_window fordcask_window(struct fordcask_series series,
                                       const uint8_t *card, size_t card_len,
                                       const uint32_t *index,
                                       size_t index_len, uint64_t count,
                                       uint64_t top, uint64_t left,
                                       uint64_t height, uint64_t width);

/* Corrections beside the stored tiles: the list `corrections` has NFL x NFC
   entries in reading order, with TIF N too, 0 for a tile that is not
   corrected, k for the k-th corrected tile; corrected is how many corrected
   tiles there are, 0..NFL x NFC. The list is not checked for numbers that
   occur twice or never. Where a correction stands, the index's entry is not
   consulted. */

/* The tile of a pixel of the chart, corrected first, and which store holds it.
   index, count, store, row and column as for fordcask_tile: index is not NULL,
   also for the empty index of a card with TIF N. corrections_store has exactly
   corrected x 49152 bytes and is not NULL, also where corrected is 0. Refuses
   6 (index, count or store), 6 (corrections, corrected or the corrections
   store), 12, 13, 15 for a correction above corrected, then, where the tile is
   not corrected, 14, 15 of the index. */
struct fordcask_corrected_tile fordcask_corrected_tile(
    struct fordcask_series series, const uint8_t *card, size_t card_len,
    const uint32_t *index, size_t index_len, uint64_t count,
    const uint8_t *store, size_t store_len, const uint32_t *corrections,
    size_t corrections_len, uint64_t corrected,
    const uint8_t *corrections_store, size_t corrections_store_len,
    int64_t row, int64_t column);

/* The band values of a pixel of the chart, corrected first. Takes and refuses
   what fordcask_corrected_tile does. */
struct fordcask_bands fordcask_corrected_bands(
    struct fordcask_series series, const uint8_t *card, size_t card_len,
    const uint32_t *index, size_t index_len, uint64_t count,
    const uint8_t *store, size_t store_len, const uint32_t *corrections,
    size_t corrections_len, uint64_t corrected,
    const uint8_t *corrections_store, size_t corrections_store_len,
    int64_t row, int64_t column);

/* The first tile in a window, in reading order, that is neither corrected nor
   stored. index, count and the window as for fordcask_window: index is not
   NULL, also for the empty index of a card with TIF N. Refuses 6 (index or
   count), 6 (corrections or corrected), 12, then 15 where an entry above its
   count comes before any missing tile: a correction, or the index's entry of a
   tile that is not corrected. A card with TIF N can be refused with 15 too. */
struct fordcask_window fordcask_corrected_window(
    struct fordcask_series series, const uint8_t *card, size_t card_len,
    const uint32_t *index, size_t index_len, uint64_t count,
    const uint32_t *corrections, size_t corrections_len, uint64_t corrected,
    uint64_t top, uint64_t left, uint64_t height, uint64_t width);

/* Sets the entry of one tile in the corrections, by the tile's number from 0
   in the image, to number: 1..corrected, or 0 to take a correction back. No
   other entry is touched; on a refusal, the card's too, the list stays.
   Refuses 6 (corrections or corrected), 12 for a tile not 0..NFL x NFC - 1,
   then 15, its place the tile, for a number above corrected. */
struct fordcask_verdict fordcask_set_correction(struct fordcask_series series,
                                                const uint8_t *card,
                                                size_t card_len,
                                                uint32_t *corrections,
                                                size_t corrections_len,
                                                uint64_t corrected,
                                                uint64_t tile,
                                                uint64_t number);

/* The index as presence bits, for an index whose non-zero entries are 1, 2, 3
   and so on in reading order: one bit a tile, 64 to a word, the first tile
   lowest. With TIF Y words has exactly NFL x NFC / 64 elements, rounded up, and
   no bit set past the last tile; with N it has none. The stored number of a
   tile is the count of ones up to and including its bit. count is stated as
   beside an index: 0..NFL x NFC, and NFL x NFC with N; it need not be the
   number of ones. Every answer is the same as from the index. words is not
   NULL, also where it has no elements. */

/* Writes the presence bits of an index: every word. index_len and words_len are
   those of the card, both 0 with TIF N. On a refusal, the card's too, the words
   stay. Refuses 6 (index_len or words_len), then 20. */
struct fordcask_verdict fordcask_to_bits(struct fordcask_series series,
                                         const uint8_t *card, size_t card_len,
                                         const uint32_t *index,
                                         size_t index_len, uint64_t *words,
                                         size_t words_len);

/* Writes the index of presence bits: every entry. words_len and index_len are
   those of the card, both 0 with TIF N. On a refusal, the card's too, the index
   stays. Refuses 6 (words_len or index_len), then 21. */
struct fordcask_verdict fordcask_to_list(struct fordcask_series series,
                                         const uint8_t *card, size_t card_len,
                                         const uint64_t *words,
                                         size_t words_len, uint32_t *index,
                                         size_t index_len);

/* The stored tile of a pixel of the chart, by presence bits. store, row and
   column as for fordcask_tile. Refuses 6 (words, count or store), 21, 12, 13,
   14, 15. */
struct fordcask_tile fordcask_bits_tile(struct fordcask_series series,
                                        const uint8_t *card, size_t card_len,
                                        const uint64_t *words,
                                        size_t words_len, uint64_t count,
                                        const uint8_t *store,
                                        size_t store_len, int64_t row,
                                        int64_t column);

/* The band values of a pixel of the chart, by presence bits. Takes and refuses
   what fordcask_bits_tile does. */
struct fordcask_bands fordcask_bits_bands(struct fordcask_series series,
                                          const uint8_t *card, size_t card_len,
                                          const uint64_t *words,
                                          size_t words_len, uint64_t count,
                                          const uint8_t *store,
                                          size_t store_len, int64_t row,
                                          int64_t column);

/* The first tile not stored in a window, in reading order, by presence bits.
   The window as for fordcask_window. Refuses 6 (words or count), 21, 12, then
   15 where a tile whose number is above the count comes before any missing
   tile. */
struct fordcask_window fordcask_bits_window(struct fordcask_series series,
                                            const uint8_t *card,
                                            size_t card_len,
                                            const uint64_t *words,
                                            size_t words_len, uint64_t count,
                                            uint64_t top, uint64_t left,
                                            uint64_t height, uint64_t width);

/* The tile of a pixel of the chart, corrected first, by presence bits, and which
   store holds it. The corrections as for fordcask_corrected_tile: their list
   stays a list. Refuses 6 (words, count or store), 6 (corrections, corrected or
   the corrections store), 21, 12, 13, 15 for a correction above corrected,
   then, where the tile is not corrected, 14, 15 of the bits. */
struct fordcask_corrected_tile fordcask_corrected_bits_tile(
    struct fordcask_series series, const uint8_t *card, size_t card_len,
    const uint64_t *words, size_t words_len, uint64_t count,
    const uint8_t *store, size_t store_len, const uint32_t *corrections,
    size_t corrections_len, uint64_t corrected,
    const uint8_t *corrections_store, size_t corrections_store_len,
    int64_t row, int64_t column);

/* The band values of a pixel of the chart, corrected first, by presence bits.
   Takes and refuses what fordcask_corrected_bits_tile does. */
struct fordcask_bands fordcask_corrected_bits_bands(
    struct fordcask_series series, const uint8_t *card, size_t card_len,
    const uint64_t *words, size_t words_len, uint64_t count,
    const uint8_t *store, size_t store_len, const uint32_t *corrections,
    size_t corrections_len, uint64_t corrected,
    const uint8_t *corrections_store, size_t corrections_store_len,
    int64_t row, int64_t column);

/* The first tile in a window, in reading order, that is neither corrected nor
   stored, by presence bits. Refuses 6 (words or count), 6 (corrections or
   corrected), 21, 12, then 15 where a number above its count comes before any
   missing tile: a correction, or that of a tile that is not corrected. A card
   with TIF N can be refused with 15 too. */
struct fordcask_window fordcask_corrected_bits_window(
    struct fordcask_series series, const uint8_t *card, size_t card_len,
    const uint64_t *words, size_t words_len, uint64_t count,
    const uint32_t *corrections, size_t corrections_len, uint64_t corrected,
    uint64_t top, uint64_t left, uint64_t height, uint64_t width);

/* The positions of the centres of many pixels. pixels: row, column, row,
   column, ..., rows NUL..NLL and columns NLS..NUS; positions: lat, lon, lat,
   lon, ... in hundredths of an arc-second. Entry i is elements 2i and 2i + 1,
   and there is one number for each. numbers[i] is 0 and entry i the answer of
   fordcask_position, or numbers[i] is 12 or 13 and the entry is 0, 0. What
   lies past the entries stays. Refuses 6 where pixels_len is odd,
   positions_len is below it, or numbers_len is below half of it. */
struct fordcask_verdict fordcask_positions(struct fordcask_series series,
                                           const uint8_t *card,
                                           size_t card_len,
                                           const int64_t *pixels,
                                           size_t pixels_len,
                                           int64_t *positions,
                                           size_t positions_len,
                                           uint32_t *numbers,
                                           size_t numbers_len);

/* The same in the corner pair: entry i is the answer of
   fordcask_corner_position. */
struct fordcask_verdict
fordcask_corner_positions(struct fordcask_series series, const uint8_t *card,
                          size_t card_len, const int64_t *pixels,
                          size_t pixels_len, int64_t *positions,
                          size_t positions_len, uint32_t *numbers,
                          size_t numbers_len);

/* The pixels that contain many positions. positions: lat, lon, lat, lon, ...
   in hundredths of an arc-second, latitude -32400000..32400000, longitude
   -64800000..64800000; pixels: row, column, row, column, .... Entry i is
   elements 2i and 2i + 1, and there is one number for each. numbers[i] is 0
   and entry i the answer of fordcask_pixel, or numbers[i] is 4, 5, 12 or 13
   and the entry is 0, 0. What lies past the entries stays. Refuses 6 where
   positions_len is odd, pixels_len is below it, or numbers_len is below half
   of it. */
struct fordcask_verdict fordcask_pixels(struct fordcask_series series,
                                        const uint8_t *card, size_t card_len,
                                        const int64_t *positions,
                                        size_t positions_len, int64_t *pixels,
                                        size_t pixels_len, uint32_t *numbers,
                                        size_t numbers_len);

/* The same in the corner pair: entry i is the answer of
   fordcask_corner_pixel. */
struct fordcask_verdict
fordcask_corner_pixels(struct fordcask_series series, const uint8_t *card,
                       size_t card_len, const int64_t *positions,
                       size_t positions_len, int64_t *pixels,
                       size_t pixels_len, uint32_t *numbers,
                       size_t numbers_len);

#ifdef __cplusplus
}
#endif

#endif
