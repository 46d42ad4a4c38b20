/*
 * florinhado: the chunk trees and FORM ILBM pictures of EA IFF 85, read and
 * written by a proved library.
 *
 * Link with target/staticlib/libflorinhado.a (x86-64 Linux); the calls need
 * nothing else, allocate nothing and keep no pointer.
 *
 * All calls:
 *   - take any bytes, and end;
 *   - return 0, or the number of a refusal (the tables below; in words
 *     florinhado_meaning, at the end);
 *   - read a file or a row, given by a pointer and a length, and don't change it;
 *   - write every number that a pointer is passed for, after a refusal too.
 *     `place` is then the place that the refusal speaks of, and 0 otherwise;
 *     the other numbers are 0 after a refusal;
 *   - change no byte of a buffer after a refusal, and none behind the result
 *     after success.
 * Pointers may not be null, not even with the length 0, and what a call
 * writes to may not overlap anything else that it is passed.
 */
#ifndef FLORINHADO_H
#define FLORINHADO_H

#include <stddef.h>
#include <stdint.h>

#ifdef __cplusplus
extern "C" {
#endif

/*
 * Refusals of the structure, in the order of their checks at each chunk.
 *
 *    1  file longer than 16,777,216 bytes (place 0)
 *    2  the outermost chunk is no FORM, LIST or CAT (place 0)
 *    4  fewer than 8 bytes left for a chunk
 *    5  name not well formed
 *    3  a version name (FOR1 to FOR9, LIS1 to LIS9, CAT1 to CAT9);
 *       told of the outermost chunk in the place of 2
 *    6  JJJJ as a chunk, or a kind that is not allowed here
 *    7  size greater than what the group or file has left
 *    8  odd size and no pad byte
 *    9  a group at level 17
 *   10  a group of size under 4
 *   11  type not allowed
 *   12  second PROP of the same type in this LIST
 *
 * `place` is where the refused chunk's header stands.
 */

/*
 * Judges the structure of the file. Refusals: 1 to 12.
 *
 *   file, file_length  the file
 *   place              out: the place of a refusal
 *   chunks             out: how many chunks there are, the outermost included
 *   end                out: where the outermost chunk ends, with its pad byte
 *   trailing           out: how many bytes follow it
 */
size_t iff_check(const uint8_t *file, size_t file_length, size_t *place,
                 size_t *chunks, size_t *end, size_t *trailing);

/*
 * Tells one chunk of the file; chunks have the numbers from 0 in file order.
 * Refusals: 1 to 12, then 14 if there is no chunk with this number (place 0).
 * The file is checked and gone through up to the chunk, so a call takes time in
 * proportion to the file; iff_records tells all chunks in that time.
 *
 *   file, file_length  the file
 *   number             the chunk's number
 *   place              out: the place of a refusal
 *   level              out: the chunk's level; the outermost has 1
 *   kind               out: one of the kinds below; 0 after a refusal
 *   name               out: the name, or the type for a group, first byte highest
 *   at                 out: where the chunk's header stands
 *   size               out: the size that the header tells
 */
size_t iff_record(const uint8_t *file, size_t file_length, size_t number,
                  size_t *place, size_t *level, size_t *kind, uint32_t *name,
                  size_t *at, size_t *size);

/*
 * Tells all chunks of the file in one walk: a column for each field of a
 * record, chunk n at place n of each. Refusals: 1 to 12, then 13 if the
 * shortest column has fewer places than the file has chunks (place 0). A
 * refusal changes no column, and places behind the last chunk stay as they
 * are. iff_check tells how many places there must be.
 *
 *   file, file_length        the file
 *   numbers, numbers_length  the chunks' numbers: 0, 1, 2, ..
 *   levels, levels_length    their levels; the outermost has 1
 *   kinds, kinds_length      each one of the kinds below
 *   names, names_length      the names, or the types for groups, first byte highest
 *   places, places_length    where their headers stand
 *   sizes, sizes_length      the sizes that the headers tell
 *   place                    out: the place of a refusal
 *   chunks                   out: how many chunks there are
 */
size_t iff_records(const uint8_t *file, size_t file_length, size_t *numbers,
                   size_t numbers_length, size_t *levels, size_t levels_length,
                   uint8_t *kinds, size_t kinds_length, uint32_t *names,
                   size_t names_length, size_t *places, size_t places_length,
                   size_t *sizes, size_t sizes_length, size_t *place,
                   size_t *chunks);

enum {
    IFF_FORM = 1,
    IFF_LIST = 2,
    IFF_CAT = 3,
    IFF_PROP = 4,
    IFF_LOCAL = 5,
    IFF_FILLER = 6
};

/*
 * Tells where the data of a local chunk or filler lies in the file.
 * Refusals: 1 to 12, then 14 if there is no chunk with this number, 15 if it
 * is a group (both with place 0).
 *
 *   file, file_length  the file
 *   number             the chunk's number
 *   place              out: the place of a refusal
 *   from, to           out: the data is file[from] to file[to - 1]
 */
size_t iff_data(const uint8_t *file, size_t file_length, size_t number,
                size_t *place, size_t *from, size_t *to);

/*
 * Writes the clean copy: the file up to the end of its outermost chunk, every
 * pad byte 0. Refusals: 1 to 12, then 32 if the copy is longer than the buffer
 * (place 0). file_length bytes are always enough.
 *
 *   file, file_length  the file
 *   out, out_length    the buffer
 *   place              out: the place of a refusal
 *   length             out: the length of the copy
 */
size_t iff_clean_copy(const uint8_t *file, size_t file_length, uint8_t *out,
                      size_t out_length, size_t *place, size_t *length);

/*
 * Counts the pictures of the file: its FORMs of type ILBM at any depth.
 * Refusals: 1 to 12.
 *
 *   file, file_length  the file
 *   place              out: the place of a refusal
 *   pictures           out: how many pictures there are
 */
size_t iff_count_pictures(const uint8_t *file, size_t file_length,
                          size_t *place, size_t *pictures);

/*
 * Refusals of pictures, after those of the structure, in the order of their
 * checks; all with place 0.
 *
 *   20  no such picture
 *   21  no BMHD counts
 *   22  more than one BODY directly in the FORM
 *   23  a property that counts has a wrong size (BMHD 20, CMAP a multiple of 3,
 *       GRAB 4, DEST 8, SPRT 2, CAMG 4)
 *   41  nPlanes of BMHD over 8
 *   42  masking of BMHD over 3
 *   43  compression of BMHD over 1
 *   24  w, h or nPlanes of BMHD 0, and there is a BODY
 *
 * The calls on its rows have more, in this order: 25 for no BODY, 46 where colours
 * are asked for and CAMG has bit 11 with other than 6 or 8 planes, 29 for a start
 * place beyond the BODY's end, 28 for what is lent in a wrong length, 44 where a
 * shape is asked for and masking is 3, 27 and 26 for a row of the BODY.
 *
 * Pictures have the numbers from 0 in file order. A property counts if it
 * stands directly in the picture's FORM before the first BODY; of several the
 * last. If there is none, the last one in the PROP ILBM of the nearest LIST
 * around the FORM whose PROP ILBM has that property: each is looked for by
 * itself, going outward, so that two may be of different PROPs. Each is told
 * with its origin:
 */
enum {
    ILBM_ABSENT = 0, /* no such property counts; its fields are 0 */
    ILBM_OWN = 1,    /* the FORM's own */
    ILBM_SHARED = 2  /* that of a PROP, which `shared` names */
};

/*
 * The calls for the properties below take and tell these beside the fields.
 * Refusals: 1 to 12, then those of pictures, above. Each checks the file and
 * goes through it up to the picture; ilbm_pictures, further down, tells all
 * pictures in that time.
 *
 *   file, file_length  the file
 *   picture            the picture's number
 *   place              out: the place of a refusal
 *   origin             out: one of the origins above; 0 after a refusal
 *   shared             out: where the header of the PROP that has it stands; 0
 *                      unless shared
 */

/*
 * Tells the header that counts, BMHD.
 *
 *   w, h                     out: pixels in a row, and rows
 *   x, y                     out: the picture's place on its page
 *   planes                   out: planes, without a mask
 *   masking                  out: 0 none, 1 mask plane, 2 transparent colour, 3 lasso
 *   compression              out: 0 none, 1 ByteRun1
 *   pad1                     out: a byte without meaning
 *   transparent              out: the transparent colour's number
 *   x_aspect, y_aspect       out: a pixel's width and height, one beside the other
 *   page_width, page_height  out: the size of the page
 */
size_t ilbm_header(const uint8_t *file, size_t file_length, size_t picture,
                   size_t *place, uint16_t *w, uint16_t *h, int16_t *x,
                   int16_t *y, uint8_t *planes, uint8_t *masking,
                   uint8_t *compression, uint8_t *pad1, uint16_t *transparent,
                   uint8_t *x_aspect, uint8_t *y_aspect, int16_t *page_width,
                   int16_t *page_height, size_t *origin, size_t *shared);

/*
 * Tells the hot spot that counts, GRAB.
 *
 *   x, y  out: from the picture's upper left corner, right and down
 */
size_t ilbm_grab(const uint8_t *file, size_t file_length, size_t picture,
                 size_t *place, int16_t *x, int16_t *y, size_t *origin,
                 size_t *shared);

/*
 * Tells the destination that counts, DEST.
 *
 *   depth         out: planes of the destination
 *   pad1          out: a byte without meaning
 *   plane_pick    out: the planes that the picture's planes go to
 *   plane_on_off  out: what the other planes are filled with
 *   plane_mask    out: the planes that may be written to
 */
size_t ilbm_dest(const uint8_t *file, size_t file_length, size_t picture,
                 size_t *place, uint8_t *depth, uint8_t *pad1,
                 uint16_t *plane_pick, uint16_t *plane_on_off,
                 uint16_t *plane_mask, size_t *origin, size_t *shared);

/*
 * Tells the sprite precedence that counts, SPRT.
 *
 *   sprite  out: the precedence
 */
size_t ilbm_sprite(const uint8_t *file, size_t file_length, size_t picture,
                   size_t *place, uint16_t *sprite, size_t *origin,
                   size_t *shared);

/*
 * Tells the view modes that count, CAMG.
 *
 *   view_mode  out: the mode's bits
 */
size_t ilbm_view_mode(const uint8_t *file, size_t file_length, size_t picture,
                      size_t *place, uint32_t *view_mode, size_t *origin,
                      size_t *shared);

/*
 * Tells where the palette that counts lies in the file, CMAP: three bytes a
 * colour, red, green, blue. With the origin 0 and the answer 0 none counts, and
 * the palette is the caller's own default.
 *
 *   from, to  out: the palette is file[from] to file[to - 1]; 0 and 0 if none
 *             counts
 */
size_t ilbm_palette(const uint8_t *file, size_t file_length, size_t picture,
                    size_t *place, size_t *origin, size_t *shared,
                    size_t *from, size_t *to);

/*
 * Writes the colour numbers of one scan line, a byte a pixel. Refusals: those
 * of a picture, then 25 for no BODY, 29 for a start beyond the BODY's end, 28
 * if the row hasn't w bytes, 27 for a copy or repeat that oversteps its plane
 * row, 26 if the BODY ends too early. 26 and 27 are told with a place counted
 * from the BODY's start. A refusal changes no byte of the row.
 *
 *   start            where the line starts in the BODY, 0 for the first one
 *   row, row_length  the row
 *   next             out: where the next line starts
 */
size_t ilbm_line(const uint8_t *file, size_t file_length, size_t picture,
                 size_t start, uint8_t *row, size_t row_length, size_t *place,
                 size_t *next);

/*
 * Writes the colour numbers of all scan lines, line by line. Refusals: those of
 * ilbm_line but 29, and 28 if the frame hasn't w times h bytes. A refusal
 * changes no byte of the frame.
 *
 *   frame, frame_length  the frame
 *   leftover             out: the bytes of the BODY after the last line
 */
size_t ilbm_frame(const uint8_t *file, size_t file_length, size_t picture,
                  uint8_t *frame, size_t frame_length, size_t *place,
                  size_t *leftover);

/*
 * Writes one scan line as ilbm_line does, and its shape beside it: a byte a
 * pixel, 1 where it shows and 0 where not. With masking 0 every pixel shows,
 * with 1 where the mask row's bit is 1, with 2 where the colour number is
 * another than the transparent one. Refusals: those of ilbm_line, 28 also if
 * the shape hasn't w bytes, and right after 28 44 for masking 3, whose shape is
 * not worked out. A refusal changes no byte of either.
 *
 *   start                where the line starts in the BODY, 0 for the first one
 *   row, row_length      the row
 *   shape, shape_length  the shape
 *   next                 out: where the next line starts
 */
size_t ilbm_shape_line(const uint8_t *file, size_t file_length, size_t picture,
                       size_t start, uint8_t *row, size_t row_length,
                       uint8_t *shape, size_t shape_length, size_t *place,
                       size_t *next);

/*
 * Writes all scan lines as ilbm_frame does, and their shape in the same way,
 * line by line. Refusals: those of ilbm_shape_line but 29, and 28 if the frame
 * or the shape hasn't w times h bytes. A refusal changes no byte of either.
 *
 *   frame, frame_length  the frame
 *   shape, shape_length  its shape
 *   leftover             out: the bytes of the BODY after the last line
 */
size_t ilbm_shape_frame(const uint8_t *file, size_t file_length,
                        size_t picture, uint8_t *frame, size_t frame_length,
                        uint8_t *shape, size_t shape_length, size_t *place,
                        size_t *leftover);

/*
 * Writes one scan line in colours, three bytes a pixel: red, green, blue. The
 * view modes of CAMG say how they are made of the colour numbers:
 *
 *   bit 11 with 6 or 8 planes  hold-and-modify: the two high bits of a number
 *                              choose 0 the palette's entry of the other bits v,
 *                              1 a new blue, 2 a new red, 3 a new green; the
 *                              other parts are those of the pixel to the left, of
 *                              (0, 0, 0) for a line's first. A part is 17 v with
 *                              6 planes, 4 v + v / 16 with 8
 *   bit 7 with 6 planes, and   half-bright: number 32 + i has entry i with each
 *   not bit 11                 part halved, rounded down
 *   else                       a number has its entry of the palette
 *
 * An entry that the palette hasn't whole is (0, 0, 0). Refusals: those of
 * ilbm_line, with 28 unless the row has 3 w bytes, and right after 25 46 for bit
 * 11 with other than 6 or 8 planes. A refusal changes no byte of the row.
 *
 *   start                            where the line starts in the BODY, 0 for the first one
 *   default_palette, default_length  the palette where no CMAP counts
 *   row, row_length                  the row
 *   next                             out: where the next line starts
 */
size_t ilbm_colour_line(const uint8_t *file, size_t file_length, size_t picture,
                        size_t start, const uint8_t *default_palette,
                        size_t default_length, uint8_t *row, size_t row_length,
                        size_t *place, size_t *next);

/*
 * Writes all scan lines in colours, line by line. Refusals: those of
 * ilbm_colour_line but 29, and 28 unless the frame has 3 w h bytes. A refusal
 * changes no byte of the frame.
 *
 *   default_palette, default_length  the palette where no CMAP counts
 *   frame, frame_length              the frame
 *   leftover                         out: the bytes of the BODY after the last line
 */
size_t ilbm_colour_frame(const uint8_t *file, size_t file_length,
                         size_t picture, const uint8_t *default_palette,
                         size_t default_length, uint8_t *frame,
                         size_t frame_length, size_t *place, size_t *leftover);

/* Triples of a palette, and their bytes. */
enum { ILBM_TRIPLES = 64, ILBM_TRIPLES_BYTES = 192 };

/*
 * Writes the palette as 64 triples of red, green, blue. Those of a half-bright
 * picture are entries 0 to 31 and their halves; those of any other picture are
 * its palette's first 64. An entry that the palette hasn't whole is (0, 0, 0).
 * Refusals: those of a picture, then 32 if there is room for fewer than 192
 * bytes. A refusal changes no byte, and bytes from 192 on stay as they are.
 *
 *   default_palette, default_length  the palette where no CMAP counts
 *   triples, triples_length          the triples
 */
size_t ilbm_triples(const uint8_t *file, size_t file_length, size_t picture,
                    const uint8_t *default_palette, size_t default_length,
                    uint8_t *triples, size_t triples_length, size_t *place);

/*
 * What the table of pictures tells of a property: its origin, one of those
 * above; where the header of the PROP that has it stands, 0 unless shared; and
 * where its data lies, file[from] to file[to - 1], 0 and 0 if it is absent.
 */
struct ilbm_property {
    size_t origin, shared, from, to;
};

/* A place of the table of pictures: 30 numbers. */
struct ilbm_picture {
    size_t answer;             /* 0, or 21, 22, 23, 41, 42, 43 or 24 */
    size_t place;              /* where its FORM's header stands */
    size_t type;               /* its FORM's type, first byte highest: ILBM */
    struct ilbm_property bmhd; /* the properties that count */
    struct ilbm_property cmap, grab, dest, sprt, camg;
    size_t body;               /* 1 if there is a BODY, and 0 if not */
    size_t body_from, body_to; /* its data is file[body_from] to file[body_to - 1] */
};

enum { ILBM_PICTURE_NUMBERS = 30 };

/* Fails to compile where the members don't lie one after the other. */
typedef char ilbm_picture_is_thirty_numbers
    [sizeof(struct ilbm_picture) == ILBM_PICTURE_NUMBERS * sizeof(size_t) ? 1 : -1];

/*
 * Tells all pictures of the file in one walk, in file order; an array of
 * struct ilbm_picture may be lent as the table. Refusals: 1 to 12, then 13 if
 * the table has fewer places, of 30 numbers each, than the file has pictures
 * (place 0). A refusal changes nothing in the table, and the numbers behind the
 * last picture stay as they are. iff_count_pictures tells how many places there
 * must be; file_length / 12 are always enough.
 *
 * A picture is refused by its `answer`, with the number that every call on it
 * returns; then its place and type are told, and its other numbers are 0.
 * The numbers are of this file as it is: they hold as long as it isn't changed.
 *
 *   file, file_length    the file
 *   table, table_length  the table; the length counts numbers
 *   place                out: the place of a refusal
 *   pictures             out: how many pictures there are
 */
size_t ilbm_pictures(const uint8_t *file, size_t file_length, size_t *table,
                     size_t table_length, size_t *place, size_t *pictures);

/*
 * Tells the fields of a BMHD by its bytes alone. Refusals: 23 if it hasn't 20
 * bytes; every field is 0 then.
 *
 *   data, data_length  the bytes
 *   the fields         out: as ilbm_header tells them
 */
size_t ilbm_bmhd(const uint8_t *data, size_t data_length, uint16_t *w,
                 uint16_t *h, int16_t *x, int16_t *y, uint8_t *planes,
                 uint8_t *masking, uint8_t *compression, uint8_t *pad1,
                 uint16_t *transparent, uint8_t *x_aspect, uint8_t *y_aspect,
                 int16_t *page_width, int16_t *page_height);

/*
 * Writes the colour numbers of one scan line from any bytes as a BODY and the
 * header's fields, with no file and no check of one: all that it takes is in
 * proportion to the line. Refusals, in this order: 41 planes over 8, 42 masking
 * over 3, 43 compression over 1, 24 w or planes 0, 29 for a start beyond the
 * BODY's end, 28 if the row hasn't w bytes, 27 and 26 as of ilbm_line. A
 * refusal changes no byte of the row.
 *
 *   body, body_length                the BODY
 *   w, planes, masking, compression  the fields of the header
 *   start                            where the line starts in the BODY, 0 for the first one
 *   row, row_length                  the row
 *   place                            out: the place of 27 and 26 in the BODY
 *   next                             out: where the next line starts
 */
size_t ilbm_body_line(const uint8_t *body, size_t body_length, uint16_t w,
                      uint8_t planes, uint8_t masking, uint8_t compression,
                      size_t start, uint8_t *row, size_t row_length,
                      size_t *place, size_t *next);

/*
 * Writes the colour numbers of all scan lines in the same way, line by line.
 * Refusals, in this order: 41, 42, 43, 24 also for h 0, 28 if the frame hasn't
 * w times h bytes, 27 and 26. A refusal changes no byte of the frame.
 *
 *   body, body_length                   the BODY
 *   w, h, planes, masking, compression  the fields of the header
 *   frame, frame_length                 the frame
 *   place                               out: the place of 27 and 26 in the BODY
 *   leftover                            out: the bytes of the BODY after the last line
 */
size_t ilbm_body_frame(const uint8_t *body, size_t body_length, uint16_t w,
                       uint16_t h, uint8_t planes, uint8_t masking,
                       uint8_t compression, uint8_t *frame,
                       size_t frame_length, size_t *place, size_t *leftover);

/*
 * Writes one scan line as ilbm_body_line does, and its shape beside it, as
 * ilbm_shape_line does. Refusals, in this order: 41, 42, 43, 24, 29, 28 if the
 * row or the shape hasn't w bytes, 44 for masking 3, 27 and 26. A refusal
 * changes no byte of either.
 *
 *   body, body_length                             the BODY
 *   w, planes, masking, compression, transparent  the fields of the header
 *   start                                         where the line starts in the BODY
 *   row, row_length                               the row
 *   shape, shape_length                           its shape
 *   place                                         out: the place of 27 and 26 in the BODY
 *   next                                          out: where the next line starts
 */
size_t ilbm_body_shape_line(const uint8_t *body, size_t body_length, uint16_t w,
                            uint8_t planes, uint8_t masking,
                            uint8_t compression, uint16_t transparent,
                            size_t start, uint8_t *row, size_t row_length,
                            uint8_t *shape, size_t shape_length, size_t *place,
                            size_t *next);

/*
 * Writes all scan lines with their shape in the same way, line by line.
 * Refusals, in this order: 41, 42, 43, 24 also for h 0, 28 if the frame or the
 * shape hasn't w times h bytes, 44, 27 and 26. A refusal changes no byte of either.
 *
 *   body, body_length                                the BODY
 *   w, h, planes, masking, compression, transparent  the fields of the header
 *   frame, frame_length                              the frame
 *   shape, shape_length                              its shape
 *   place                                            out: the place of 27 and 26 in the BODY
 *   leftover                                         out: the bytes of the BODY after the last line
 */
size_t ilbm_body_shape_frame(const uint8_t *body, size_t body_length,
                             uint16_t w, uint16_t h, uint8_t planes,
                             uint8_t masking, uint8_t compression,
                             uint16_t transparent, uint8_t *frame,
                             size_t frame_length, uint8_t *shape,
                             size_t shape_length, size_t *place,
                             size_t *leftover);

/*
 * Writes one scan line of any bytes as a BODY in colours, as ilbm_colour_line
 * does. Refusals, in this order: 41, 42, 43, 24, 46, 29, 28 unless the row has
 * 3 w bytes, 27 and 26. A refusal changes no byte of the row.
 *
 *   body, body_length                the BODY
 *   w, planes, masking, compression  the fields of the header
 *   view_mode                        the bits of CAMG, 0 if there is none
 *   palette, palette_length          the palette, three bytes a colour
 *   start                            where the line starts in the BODY
 *   row, row_length                  the row
 *   place                            out: the place of 27 and 26 in the BODY
 *   next                             out: where the next line starts
 */
size_t ilbm_body_colour_line(const uint8_t *body, size_t body_length,
                             uint16_t w, uint8_t planes, uint8_t masking,
                             uint8_t compression, uint32_t view_mode,
                             const uint8_t *palette, size_t palette_length,
                             size_t start, uint8_t *row, size_t row_length,
                             size_t *place, size_t *next);

/*
 * Writes all scan lines in colours in the same way, line by line. Refusals, in
 * this order: 41, 42, 43, 24 also for h 0, 46, 28 unless the frame has 3 w h
 * bytes, 27 and 26. A refusal changes no byte of the frame.
 *
 *   body, body_length                   the BODY
 *   w, h, planes, masking, compression  the fields of the header
 *   view_mode                           the bits of CAMG, 0 if there is none
 *   palette, palette_length             the palette, three bytes a colour
 *   frame, frame_length                 the frame
 *   place                               out: the place of 27 and 26 in the BODY
 *   leftover                            out: the bytes of the BODY after the last line
 */
size_t ilbm_body_colour_frame(const uint8_t *body, size_t body_length,
                              uint16_t w, uint16_t h, uint8_t planes,
                              uint8_t masking, uint8_t compression,
                              uint32_t view_mode, const uint8_t *palette,
                              size_t palette_length, uint8_t *frame,
                              size_t frame_length, size_t *place,
                              size_t *leftover);

/*
 * Writes any palette as 64 triples, as ilbm_triples does. Refusals: 32 if there
 * is room for fewer than 192 bytes; it changes no byte.
 *
 *   palette, palette_length  the palette, three bytes a colour
 *   planes                   the planes of the header
 *   view_mode                the bits of CAMG, 0 if there is none
 *   triples, triples_length  the triples
 */
size_t ilbm_palette_triples(const uint8_t *palette, size_t palette_length,
                            uint8_t planes, uint32_t view_mode,
                            uint8_t *triples, size_t triples_length);

/*
 * Packs one row by ByteRun1. Refusals: 31 if the row hasn't 1 to 8,192 bytes,
 * then 32 if the result is longer than the buffer. row_length +
 * (row_length + 127) / 128 bytes are always enough.
 *
 *   row, row_length  the row
 *   out, out_length  the buffer
 *   length           out: the length of the result
 */
size_t byterun_pack(const uint8_t *row, size_t row_length, uint8_t *out,
                    size_t out_length, size_t *length);

/*
 * Writes one picture as a file: a FORM ILBM with BMHD, CMAP (unless the palette
 * is empty) and BODY. Refusals, in this order, none with a place:
 *
 *   33  w or h 0, planes not 1 to 8, masking over 3, compression over 1, a
 *       palette that is no multiple of 3 or over 768 bytes, or a frame that
 *       hasn't w times h bytes
 *   34  a colour number of 2 to the plane count or more
 *   45  a shape with a byte over 1, or that hasn't w times h bytes for masking
 *       1 and none for the rest
 *   35  the file would be over 16,777,216 bytes
 *   32  the file is longer than the buffer
 *
 * 824 + h * rows * r bytes are always enough for the file, with rows = planes,
 * or planes + 1 for masking 1, and r = 2 * ((w + 15) / 16), or r + (r + 127) /
 * 128 in the place of r if it is packed; one more if the BODY's size is odd.
 *
 *   w, h                      pixels in a row, and rows
 *   x, y                      the picture's place on its page
 *   planes                    1 to 8
 *   masking                   0 none, 1 a mask plane, 2 a transparent colour, 3 lasso
 *   compression               0 none, 1 ByteRun1
 *   transparent               the colour number of masking 2 and 3
 *   x_aspect, y_aspect        the shape of a pixel, width beside height
 *   page_width, page_height   the page
 *   palette, palette_length   three bytes a colour, red, green, blue
 *   frame, frame_length       the colour numbers, a byte a pixel, line by line
 *   shape, shape_length       for masking 1 a byte a pixel, 1 where it shows and 0
 *                             where not, which the mask plane is made of; else none
 *   out, out_length           the buffer
 *   length                    out: the length of the file
 */
size_t ilbm_write(uint16_t w, uint16_t h, int16_t x, int16_t y, uint8_t planes,
                  uint8_t masking, uint8_t compression, uint16_t transparent,
                  uint8_t x_aspect, uint8_t y_aspect, int16_t page_width,
                  int16_t page_height, const uint8_t *palette,
                  size_t palette_length, const uint8_t *frame,
                  size_t frame_length, const uint8_t *shape,
                  size_t shape_length, uint8_t *out, size_t out_length,
                  size_t *length);

/*
 * The words for a number that a call returned: what is wrong, and with which
 * field.
 */
static inline const char *florinhado_meaning(size_t number)
{
    switch (number) {
    case 0: return "no refusal";
    case 1: return "file longer than 16,777,216 bytes";
    case 2: return "no FORM, LIST or CAT";
    case 3: return "a version name, reserved for later standards";
    case 4: return "fewer than 8 bytes left for a chunk";
    case 5: return "name not well formed";
    case 6: return "chunk not allowed here";
    case 7: return "size greater than what the group or file has left";
    case 8: return "odd size and no pad byte";
    case 9: return "a group at level 17";
    case 10: return "a group of size under 4";
    case 11: return "type not allowed";
    case 12: return "second PROP of the same type in this LIST";
    case 13: return "fewer places in the table than chunks or pictures";
    case 14: return "no such record";
    case 15: return "a group, where a local chunk or filler is asked for";
    case 20: return "no such picture";
    case 21: return "no BMHD counts";
    case 22: return "more than one BODY directly in the FORM";
    case 23: return "a property has a wrong size";
    case 24: return "w, h or nPlanes 0: a picture with a BODY has at least 1 of each";
    case 25: return "rows asked and no BODY";
    case 26: return "the BODY ends before the row is full";
    case 27: return "a copy or repeat oversteps its row";
    case 28: return "row, frame or shape of a wrong length";
    case 29: return "start place beyond the BODY's end";
    case 31: return "a row to pack has 1 to 8,192 bytes";
    case 32: return "result longer than the buffer";
    case 33: return "header field, palette or frame that can't be written";
    case 34: return "a colour number with more bits than planes";
    case 35: return "result over 16,777,216 bytes";
    case 40: return "more than 65,536 bytes of input";
    case 41: return "nPlanes 9 or more: at most 8 planes are known";
    case 42: return "masking 4 or more: only 0 to 3 are known";
    case 43: return "compression 2 or more: only 0 and 1 are known";
    case 44: return "masking 3, a lasso: its shape is not worked out";
    case 45: return "a shape with a byte over 1 or of a wrong length";
    case 46: return "CAMG bit 11, hold-and-modify, with other than 6 or 8 planes";
    default: return "unknown number";
    }
}

#ifdef __cplusplus
}
#endif

#endif
