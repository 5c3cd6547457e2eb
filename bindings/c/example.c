/* The worked example of document 01: four pixels of one card, and a position
   back to its pixel, in the corner pair; then the centre pair on one pixel. */

#include <inttypes.h>
#include <stdio.h>

#include "fordcask.h"

static const char card[] =
    "30036966400400384-0022935.07+113032.23000000000127000255000000"
    "00200100012800012801008BASE0101.IMGN";

/* An angle in card form: a sign, degrees, minutes, seconds and hundredths. */
static void print_angle(int64_t angle, int degree_digits)
{
    int64_t size = angle < 0 ? -angle : angle;

    printf(" %c%0*" PRId64 "%02" PRId64 "%02" PRId64 ".%02" PRId64,
           angle < 0 ? '-' : '+', degree_digits, size / 360000,
           size / 6000 % 60, size / 100 % 60, size % 100);
}

int main(void)
{
    static const int64_t pixels[4][2] = {{0, 0}, {1, 1}, {255, 127}, {256, 0}};
    const uint8_t *bytes = (const uint8_t *)card;
    struct fordcask_series series = {1000000, 1, 1};
    struct fordcask_position centre;
    struct fordcask_pixel back;
    size_t i;

    printf("row column latitude longitude\n");
    for (i = 0; i < 4; i++) {
        int64_t row = pixels[i][0], column = pixels[i][1];
        struct fordcask_position found = fordcask_corner_position(
            series, bytes, FORDCASK_CARD_LENGTH, row, column);

        printf("%" PRId64 " %" PRId64, row, column);
        if (found.number == 0) {
            print_angle(found.lat, 2);
            print_angle(found.lon, 3);
            printf("\n");
        } else {
            printf(" refused %" PRIu32 "\n", found.number);
        }
    }

    back = fordcask_corner_pixel(series, bytes, FORDCASK_CARD_LENGTH, 4142899,
                                 -897156);
    printf("back %" PRIu32 " %" PRId64 " %" PRId64 "\n", back.number, back.row,
           back.column);

    centre = fordcask_position(series, bytes, FORDCASK_CARD_LENGTH, 1, 1);
    printf("centre");
    print_angle(centre.lat, 2);
    print_angle(centre.lon, 3);
    back = fordcask_pixel(series, bytes, FORDCASK_CARD_LENGTH, centre.lat,
                          centre.lon);
    printf("\nback %" PRIu32 " %" PRId64 " %" PRId64 "\n", back.number,
           back.row, back.column);
    return 0;
}
