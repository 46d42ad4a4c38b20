/* Prints the listing of the file that the command line names. */

#include <stdio.h>
#include <stdlib.h>

#include "florinhado.h"

/* One byte more than a file may have: no need to read on. */
#define ENOUGH (16777216 + 1)

static const char *const kinds[] = {"", "FORM", "LIST", "CAT", "PROP", "LOCAL", "FILLER"};

/* A chunk's fields, each in a column of its own. */
struct table {
    size_t *numbers, *levels, *places, *sizes;
    uint32_t *names;
    uint8_t *kinds;
};

/* Four columns of size_t one after the other, then the names, then the kinds. */
static void *lay_out(struct table *table, size_t chunks)
{
    void *room = malloc(chunks * (4 * sizeof(size_t) + sizeof(uint32_t) + 1));

    table->numbers = room;
    table->levels = table->numbers + chunks;
    table->places = table->levels + chunks;
    table->sizes = table->places + chunks;
    table->names = (uint32_t *)(table->sizes + chunks);
    table->kinds = (uint8_t *)(table->names + chunks);
    return room;
}

static void print_chunk(const struct table *table, size_t n)
{
    int shift;

    printf("chunk=%zu\nlevel=%zu\n", table->numbers[n], table->levels[n]);
    printf("kind=%s\nname=", kinds[table->kinds[n]]);
    for (shift = 24; shift >= 0; shift -= 8)
        putchar((int)(table->names[n] >> shift & 255));
    printf("\nat=%zu\nsize=%zu\n", table->places[n], table->sizes[n]);
}

static int print_chunks(const uint8_t *file, size_t length, size_t chunks)
{
    struct table table;
    size_t place, told, n;
    void *room = lay_out(&table, chunks);

    if (room == NULL)
        return 2;
    iff_records(file, length, table.numbers, chunks, table.levels, chunks, table.kinds, chunks,
                table.names, chunks, table.places, chunks, table.sizes, chunks, &place, &told);
    for (n = 0; n < told; n++)
        print_chunk(&table, n);
    free(room);
    return 0;
}

static int print_listing(const uint8_t *file, size_t length)
{
    size_t place, chunks, end, trailing, pictures;
    size_t answer = iff_check(file, length, &place, &chunks, &end, &trailing);

    printf("answer=%zu\nplace=%zu\n", answer, place);
    if (answer != 0)
        return 1;
    iff_count_pictures(file, length, &place, &pictures);
    printf("chunks=%zu\nend=%zu\ntrailing=%zu\n", chunks, end, trailing);
    printf("pictures=%zu\n", pictures);
    return print_chunks(file, length, chunks);
}

int main(int count, char **words)
{
    FILE *stream = count == 2 ? fopen(words[1], "rb") : NULL;
    uint8_t *file = malloc(ENOUGH);
    size_t length;
    int status;

    if (stream == NULL || file == NULL) {
        fprintf(stderr, "use: example FILE\n");
        return 2;
    }
    length = fread(file, 1, ENOUGH, stream);
    status = ferror(stream) ? 2 : print_listing(file, length);
    fclose(stream);
    free(file);
    return status;
}
