/*
 * A small library over ndarray_layout, as a codec's author would write it: pictures of bytes, by rows, columns and channels, in
 * buffers that somebody else keeps. Each call that can refuse returns whether it did what its name says; where it didn't, it has
 * changed nothing but `why`, which says so in a sentence.
 */
#ifndef PICTURE_H
#define PICTURE_H

#include <ndarray_layout.h>
#include <stdbool.h>
#include <stddef.h>
#include <stdint.h>

typedef struct picture {
    uint8_t *bytes;
    nd_view view; /* (rows,columns,channels) */
} picture;

typedef struct picture_error {
    char text[240];
} picture_error;

/* What a file says of its picture. A stride counts bytes, from one row, column or channel to the next, with its sign. */
typedef struct picture_header {
    size_t start;
    size_t shape[3];
    ptrdiff_t strides[3];
} picture_header;

/* A picture over a buffer of `size` bytes: interleaved, planar, with gaps, or stored from its last row up. No byte is in it twice. */
bool picture_over(uint8_t *bytes, size_t size, const picture_header *header, picture *made, picture_error *why);

/* Where a part begins in a picture, and how many rows and columns it has. */
typedef struct picture_part {
    size_t top, left, rows, columns;
} picture_part;

/* A part of a picture, over the same bytes. */
bool picture_crop(const picture *of, picture_part part, picture *made, picture_error *why);

/* Copies each byte. Pictures that share a byte are refused. */
bool picture_copy(const picture *to, const picture *from, picture_error *why);

/* Blends a picture over another one by an alpha of each byte: 0 leaves it, and 255 replaces it. `to` shares no byte with the others. */
bool picture_blend(const picture *to, const picture *from, const picture *alpha, picture_error *why);

/* Writes how many bytes differ. */
bool picture_compare(const picture *one, const picture *other, size_t *different, picture_error *why);

/* Copies a picture over a part of another one, from a row and a column on. Where it shares a byte with that part, it is refused. */
bool picture_paste(const picture *to, const picture *from, size_t top, size_t left, picture_error *why);

#endif
