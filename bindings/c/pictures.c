/* Checks a file once and prints each of its pictures: size, origins, colours, pixels of the first line. */

#include <stdio.h>
#include <stdlib.h>

#include "florinhado.h"

/* One byte more than a file may have: no need to read on. */
#define ENOUGH (16777216 + 1)

/* The fields of a header that say how its BODY is read. */
struct header {
    uint16_t w, h;
    uint8_t planes, masking, compression;
};

static void read_header(const uint8_t *file, const struct ilbm_property *bmhd, struct header *header)
{
    uint16_t transparent;
    int16_t x, y, page_width, page_height;
    uint8_t pad1, x_aspect, y_aspect;

    ilbm_bmhd(file + bmhd->from, bmhd->to - bmhd->from, &header->w, &header->h, &x, &y, &header->planes,
              &header->masking, &header->compression, &pad1, &transparent, &x_aspect, &y_aspect,
              &page_width, &page_height);
}

static void print_origin(const char *what, const struct ilbm_property *property)
{
    if (property->origin == ILBM_SHARED)
        printf(", %s of the PROP at %zu", what, property->shared);
    else
        printf(", %s %s", what, property->origin == ILBM_OWN ? "of its own" : "absent");
}

static void print_pixels(const uint8_t *body, size_t length, const struct header *header)
{
    size_t size = (size_t)header->w * header->h, place, leftover, x;
    uint8_t *frame = malloc(size);
    size_t answer = frame == NULL ? 0
        : ilbm_body_frame(body, length, header->w, header->h, header->planes, header->masking,
                          header->compression, frame, size, &place, &leftover);

    if (frame == NULL)
        printf(", no memory");
    else if (answer != 0)
        printf(", refusal %zu at %zu, %s", answer, place, florinhado_meaning(answer));
    else
        for (printf(", pixels"), x = 0; x < header->w; x++)
            printf(" %d", frame[x]);
    free(frame);
}

static void print_picture(const uint8_t *file, size_t number, const struct ilbm_picture *picture)
{
    struct header header;

    printf("picture %zu at %zu: ", number, picture->place);
    if (picture->answer != 0) {
        printf("refusal %zu, %s\n", picture->answer, florinhado_meaning(picture->answer));
        return;
    }
    read_header(file, &picture->bmhd, &header);
    printf("%d by %d", header.w, header.h);
    print_origin("header", &picture->bmhd);
    print_origin("palette", &picture->cmap);
    printf(", %zu colours", (picture->cmap.to - picture->cmap.from) / 3);
    if (picture->body)
        print_pixels(file + picture->body_from, picture->body_to - picture->body_from, &header);
    printf("\n");
}

/* With a table of this many places; 13 asks for a longer one. */
static size_t print_pictures(const uint8_t *file, size_t length, size_t places)
{
    struct ilbm_picture *table = calloc(places, sizeof *table);
    size_t place, pictures, n;
    size_t answer = table == NULL ? 13
        : ilbm_pictures(file, length, (size_t *)table, places * ILBM_PICTURE_NUMBERS, &place, &pictures);

    if (answer != 0 && answer != 13)
        printf("refusal %zu at %zu, %s\n", answer, place, florinhado_meaning(answer));
    for (n = 0; answer == 0 && n < pictures; n++)
        print_picture(file, n, &table[n]);
    free(table);
    return answer;
}

/* A short table does for most files, which are then checked only once. */
static int print_file(const uint8_t *file, size_t length)
{
    size_t place, pictures;
    size_t answer = print_pictures(file, length, 32);

    if (answer == 13 && iff_count_pictures(file, length, &place, &pictures) == 0)
        answer = print_pictures(file, length, pictures);
    return answer != 0;
}

int main(int count, char **words)
{
    FILE *stream = count == 2 ? fopen(words[1], "rb") : NULL;
    uint8_t *file = malloc(ENOUGH);
    size_t length;
    int status;

    if (stream == NULL || file == NULL) {
        fprintf(stderr, "use: pictures FILE\n");
        return 2;
    }
    length = fread(file, 1, ENOUGH, stream);
    status = ferror(stream) ? 2 : print_file(file, length);
    fclose(stream);
    free(file);
    return status;
}
