/* Checks a file once and prints each of its pictures in colours: red, green, blue of each pixel, line by line. */

#include <stdio.h>
#include <stdlib.h>

#include "florinhado.h"

/* One byte more than a file may have: no need to read on. */
#define ENOUGH (16777216 + 1)

/* Pictures that are shown of a file. */
#define MOST 1000

/* The palette of a picture that has none. */
static const uint8_t black_and_white[] = {0, 0, 0, 255, 255, 255};

/* All that the colours of a picture are made of. */
struct source {
    const uint8_t *body, *palette;
    size_t body_length, palette_length;
    uint16_t w, h;
    uint8_t planes, masking, compression;
    uint32_t view_mode;
};

static void find(const uint8_t *file, const struct ilbm_picture *picture, struct source *source)
{
    uint16_t transparent;
    int16_t x, y, page_width, page_height;
    uint8_t pad1, x_aspect, y_aspect;
    const uint8_t *mode = file + picture->camg.from;
    int has_palette = picture->cmap.origin != ILBM_ABSENT;

    ilbm_bmhd(file + picture->bmhd.from, picture->bmhd.to - picture->bmhd.from, &source->w, &source->h, &x, &y,
              &source->planes, &source->masking, &source->compression, &pad1, &transparent, &x_aspect,
              &y_aspect, &page_width, &page_height);
    source->body = file + picture->body_from;
    source->body_length = picture->body_to - picture->body_from;
    source->palette = has_palette ? file + picture->cmap.from : black_and_white;
    source->palette_length = has_palette ? picture->cmap.to - picture->cmap.from : sizeof black_and_white;
    source->view_mode = picture->camg.origin == ILBM_ABSENT ? 0
        : (uint32_t)mode[0] << 24 | (uint32_t)mode[1] << 16 | (uint32_t)mode[2] << 8 | mode[3];
}

static void print_lines(const struct source *source)
{
    static uint8_t row[3 * 65535];
    size_t start = 0, place, answer, y, x;

    for (y = 0; y < source->h; y++) {
        answer = ilbm_body_colour_line(source->body, source->body_length, source->w, source->planes,
                                       source->masking, source->compression, source->view_mode,
                                       source->palette, source->palette_length, start, row,
                                       3 * (size_t)source->w, &place, &start);
        if (answer != 0) {
            printf("refusal %zu at %zu, %s\n", answer, place, florinhado_meaning(answer));
            return;
        }
        for (x = 0; x < source->w; x++)
            printf("%02x%02x%02x%c", row[3 * x], row[3 * x + 1], row[3 * x + 2], x + 1 < source->w ? ' ' : '\n');
    }
}

static int print_pictures(const uint8_t *file, size_t length)
{
    static struct ilbm_picture table[MOST];
    struct source source;
    size_t place, pictures, n;
    size_t refused = ilbm_pictures(file, length, (size_t *)table, MOST * ILBM_PICTURE_NUMBERS, &place, &pictures);

    if (refused != 0)
        printf("refusal %zu at %zu, %s\n", refused, place, florinhado_meaning(refused));
    for (n = 0; n < pictures; n++) {
        size_t answer = table[n].answer != 0 || table[n].body ? table[n].answer : 25;

        printf("picture %zu\n", n);
        if (answer == 0) {
            find(file, &table[n], &source);
            print_lines(&source);
        } else {
            printf("refusal %zu at 0, %s\n", answer, florinhado_meaning(answer));
        }
    }
    return refused != 0;
}

int main(int count, char **words)
{
    FILE *stream = count == 2 ? fopen(words[1], "rb") : NULL;
    uint8_t *file = malloc(ENOUGH);
    size_t length;
    int status;

    if (stream == NULL || file == NULL) {
        fprintf(stderr, "use: colours FILE\n");
        return 2;
    }
    length = fread(file, 1, ENOUGH, stream);
    status = ferror(stream) ? 2 : print_pictures(file, length);
    fclose(stream);
    free(file);
    return status;
}
