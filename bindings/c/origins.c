/* Prints where the header and the palette of each picture of a file come from. */

#include <stdio.h>
#include <stdlib.h>

#include "florinhado.h"

/* One byte more than a file may have: no need to read on. */
#define ENOUGH (16777216 + 1)

static void print_origin(const char *what, size_t origin, size_t shared)
{
    if (origin == ILBM_SHARED)
        printf(", %s of the PROP at %zu", what, shared);
    else
        printf(", %s %s", what, origin == ILBM_OWN ? "of its own" : "absent");
}

static void print_picture(const uint8_t *file, size_t length, size_t picture)
{
    uint16_t w, h, transparent;
    int16_t x, y, page_width, page_height;
    uint8_t planes, masking, compression, pad1, x_aspect, y_aspect;
    size_t place, origin, shared, from, to;
    size_t answer = ilbm_header(file, length, picture, &place, &w, &h, &x, &y, &planes, &masking,
                                &compression, &pad1, &transparent, &x_aspect, &y_aspect, &page_width,
                                &page_height, &origin, &shared);

    if (answer != 0) {
        printf("picture %zu: refusal %zu, %s\n", picture, answer, florinhado_meaning(answer));
        return;
    }
    printf("picture %zu: %d by %d", picture, w, h);
    print_origin("header", origin, shared);
    ilbm_palette(file, length, picture, &place, &origin, &shared, &from, &to);
    print_origin("palette", origin, shared);
    printf(", %zu colours\n", (to - from) / 3);
}

static int print_pictures(const uint8_t *file, size_t length)
{
    size_t place, pictures, picture;
    size_t answer = iff_count_pictures(file, length, &place, &pictures);

    if (answer != 0) {
        printf("refusal %zu at %zu, %s\n", answer, place, florinhado_meaning(answer));
        return 1;
    }
    for (picture = 0; picture < pictures; picture++)
        print_picture(file, length, picture);
    return 0;
}

int main(int count, char **words)
{
    FILE *stream = count == 2 ? fopen(words[1], "rb") : NULL;
    uint8_t *file = malloc(ENOUGH);
    size_t length;
    int status;

    if (stream == NULL || file == NULL) {
        fprintf(stderr, "use: origins FILE\n");
        return 2;
    }
    length = fread(file, 1, ENOUGH, stream);
    status = ferror(stream) ? 2 : print_pictures(file, length);
    fclose(stream);
    free(file);
    return status;
}
