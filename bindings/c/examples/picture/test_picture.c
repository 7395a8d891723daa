/* The library beside plain loops: random pictures of interleaved, planar and mirrored bytes, with gaps, and random parts of them. */
#include "picture.h"

#include <stdio.h>
#include <stdlib.h>
#include <string.h>

enum { ROUNDS = 20000, SIZE = 400 };

static int failed;

#define CHECK(fact) \
    do { \
        if (!(fact)) failed++, printf("test_picture.c:%d: %s\n", __LINE__, #fact); \
    } while (0)

static uint64_t state = 0x9e3779b97f4a7c15;

static size_t below(size_t bound) {
    state ^= state << 13;
    state ^= state >> 7;
    state ^= state << 17;
    return (size_t)(state % bound);
}

/* How often each outcome came. */
static struct {
    int copied, blended, compared, pasted, cropped, shared, other_shape, past_the_end, aliased, outside;
} seen;

/* A header at random that fits a buffer, but for its start: the bytes of a pixel, of a column or of a plane lie together. */
static picture_header random_header(void) {
    picture_header header = {0, {1 + below(5), 1 + below(5), 1 + below(3)}, {0, 0, 0}};
    const size_t rows = header.shape[0], columns = header.shape[1], channels = header.shape[2], gap = below(3);
    const ptrdiff_t kinds[3][3] = {
        {(ptrdiff_t)(columns * channels + gap), (ptrdiff_t)channels, 1},
        {(ptrdiff_t)(columns + gap), 1, (ptrdiff_t)((columns + gap) * rows)},
        {1, (ptrdiff_t)(rows + gap), (ptrdiff_t)((rows + gap) * columns)},
    };
    memcpy(header.strides, kinds[below(3)], sizeof header.strides);
    for (int axis = 0; axis < 3; axis++) {
        if (below(4) > 0) continue;
        header.start += (header.shape[axis] - 1) * (size_t)header.strides[axis];
        header.strides[axis] = -header.strides[axis];
    }
    return header;
}

static void fill(uint8_t *bytes) {
    for (size_t at = 0; at < SIZE; at++) bytes[at] = (uint8_t)below(256);
}

/* The shape of a picture, and where the byte of an index lies, by hand. */
static size_t length(const picture *of, int axis) { return of->view.layout.shape[axis]; }

static size_t place(const picture *of, size_t row, size_t column, size_t channel) {
    const ptrdiff_t *const strides = of->view.layout.strides;
    return of->view.layout.start + row * (size_t)strides[0] + column * (size_t)strides[1] + channel * (size_t)strides[2];
}

#define EACH(of, row, column, channel) \
    for (size_t row = 0; row < length(of, 0); row++) \
        for (size_t column = 0; column < length(of, 1); column++) \
            for (size_t channel = 0; channel < length(of, 2); channel++)

static bool is_one_shape(const picture *one, const picture *other) {
    return memcmp(one->view.layout.shape, other->view.layout.shape, 3 * sizeof(size_t)) == 0;
}

/* Whether a byte of one picture is one of the other. */
static bool share_by_hand(const picture *one, const picture *other) {
    bool taken[SIZE] = {false};
    if (one->bytes != other->bytes) return false;
    EACH(one, row, column, channel) taken[place(one, row, column, channel)] = true;
    EACH(other, row, column, channel) if (taken[place(other, row, column, channel)]) return true;
    return false;
}

static bool says(const picture_error *why, const char *text) {
    if (strcmp(why->text, text) == 0) return true;
    printf("'%s' in the place of '%s'\n", why->text, text);
    return false;
}

/* The sentence where pictures are of two shapes. */
static bool says_shapes(const picture_error *why, const picture *first, const picture *second) {
    char text[160];
    int axis = 0;
    while (length(first, axis) == length(second, axis)) axis++;
    snprintf(text, sizeof text, "axis %d: view 1 has length %zu, and the first one %zu", axis, length(second, axis),
             length(first, axis));
    return says(why, text);
}

/* Copies as the library does, beside a loop: or neither does, and the sentence says why. */
static void check_copy(const picture *to, const picture *from) {
    uint8_t expected[SIZE];
    picture_error why;
    memcpy(expected, to->bytes, SIZE);
    const bool fits = is_one_shape(to, from), shares = fits && share_by_hand(to, from), done = picture_copy(to, from, &why);
    CHECK(done == (fits && !shares));
    if (done) EACH(to, row, column, channel) expected[place(to, row, column, channel)] = from->bytes[place(from, row, column, channel)];
    CHECK(memcmp(expected, to->bytes, SIZE) == 0);
    if (!fits) CHECK(says_shapes(&why, to, from));
    if (shares) CHECK(says(&why, "what is written shares a byte with what is read"));
    seen.copied += done;
    seen.other_shape += !fits;
    seen.shared += shares;
}

static void check_blend(const picture *to, const picture *from, const picture *alpha) {
    uint8_t expected[SIZE];
    picture_error why;
    memcpy(expected, to->bytes, SIZE);
    const bool done = picture_blend(to, from, alpha, &why);
    CHECK(done == (is_one_shape(to, from) && is_one_shape(to, alpha) && !share_by_hand(to, from) && !share_by_hand(to, alpha)));
    if (done)
        EACH(to, row, column, channel) {
            const int over = from->bytes[place(from, row, column, channel)], part = alpha->bytes[place(alpha, row, column, channel)];
            uint8_t *const under = expected + place(to, row, column, channel);
            *under = (uint8_t)((over * part + *under * (255 - part) + 127) / 255);
        }
    CHECK(memcmp(expected, to->bytes, SIZE) == 0);
    seen.blended += done;
}

static void check_compare(const picture *one, const picture *other) {
    size_t different = SIZE + 1, expected = 0;
    picture_error why;
    const bool done = picture_compare(one, other, &different, &why);
    CHECK(done == is_one_shape(one, other));
    if (done)
        EACH(one, row, column, channel)
            expected += one->bytes[place(one, row, column, channel)] != other->bytes[place(other, row, column, channel)];
    CHECK(different == (done ? expected : SIZE + 1));
    seen.compared += done;
}

/* The sentence of the first bound that is past an axis. */
static bool says_bound(const picture_error *why, const picture *of, picture_part part) {
    const size_t first[2] = {part.top, part.left}, count[2] = {part.rows, part.columns};
    char text[160];
    for (int axis = 0; axis < 2; axis++) {
        const size_t bound = first[axis] > length(of, axis) ? first[axis] : first[axis] + count[axis];
        if (bound <= length(of, axis)) continue;
        snprintf(text, sizeof text, "axis %d: bound %zu is past length %zu, and isn't clamped", axis, bound, length(of, axis));
        return says(why, text);
    }
    return false;
}

static bool check_crop(const picture *of, picture_part part, picture *made) {
    picture_error why;
    const bool fits = part.top + part.rows <= length(of, 0) && part.left + part.columns <= length(of, 1);
    const bool done = picture_crop(of, part, made, &why);
    CHECK(done == fits);
    if (!done) CHECK(says_bound(&why, of, part));
    if (done)
        EACH(made, row, column, channel)
            CHECK(place(made, row, column, channel) == place(of, part.top + row, part.left + column, channel));
    seen.cropped += done;
    seen.past_the_end += !done;
    return done;
}

/* Pastes a part of a picture elsewhere into it, or into another one. */
static void check_paste(const picture *to, const picture *from) {
    uint8_t expected[SIZE];
    picture_error why;
    const picture_part part = {below(4), below(4), length(from, 0), length(from, 1)};
    picture under;
    memcpy(expected, to->bytes, SIZE);
    const bool fits = check_crop(to, part, &under) && is_one_shape(&under, from) && !share_by_hand(&under, from);
    const bool done = picture_paste(to, from, part.top, part.left, &why);
    CHECK(done == fits);
    if (done)
        EACH(from, row, column, channel)
            expected[place(to, part.top + row, part.left + column, channel)] = from->bytes[place(from, row, column, channel)];
    CHECK(memcmp(expected, to->bytes, SIZE) == 0);
    seen.pasted += done;
}

/* A header that no buffer of so many bytes takes. */
static void check_headers(uint8_t *bytes, picture_header header) {
    picture made;
    picture_error why;
    char text[160];
    size_t highest = header.start;
    for (int axis = 0; axis < 3; axis++)
        if (header.strides[axis] > 0) highest += (header.shape[axis] - 1) * (size_t)header.strides[axis];
    CHECK(!picture_over(bytes, highest, &header, &made, &why));
    snprintf(text, sizeof text, "the highest place %zu is past a buffer of %zu elements", highest, highest);
    CHECK(says(&why, text));
    seen.outside++;
    header.strides[1] = 0;
    if (header.shape[1] == 1) return;
    CHECK(!picture_over(bytes, SIZE, &header, &made, &why));
    CHECK(strstr(why.text, "axis 1: two indices may have one place, so it isn't writable: stride 0 isn't past 0") == why.text);
    seen.aliased++;
}

static void check_round(void) {
    uint8_t first[SIZE], second[SIZE], third[SIZE];
    picture_header header = random_header(), other = below(3) ? header : random_header();
    picture pictures[4];
    picture_error why;
    fill(first);
    fill(second);
    fill(third);
    CHECK(picture_over(first, SIZE, &header, &pictures[0], &why));
    CHECK(picture_over(second, SIZE, &other, &pictures[1], &why));
    CHECK(picture_over(below(2) ? third : second, SIZE, &header, &pictures[2], &why));
    check_headers(first, header);
    check_compare(&pictures[0], &pictures[1]);
    check_blend(&pictures[0], &pictures[1], &pictures[2]);
    check_copy(&pictures[1], &pictures[0]);
    const picture_part part = {below(3), below(3), 1 + below(3), 1 + below(3)};
    if (!check_crop(&pictures[0], part, &pictures[3])) return;
    check_paste(&pictures[below(2)], &pictures[3]);
    const picture_part beside = {below(3), below(3), part.rows, part.columns};
    if (check_crop(&pictures[0], beside, &pictures[2])) check_copy(&pictures[2], &pictures[3]);
}

int main(void) {
    for (int round = 0; round < ROUNDS; round++) check_round();
    const int *const counts = &seen.copied;
    for (size_t at = 0; at < sizeof seen / sizeof *counts; at++) CHECK(counts[at] > 100);
    printf("%d rounds: %d copied, %d blended, %d compared, %d pasted, %d refused; %d failed\n", ROUNDS, seen.copied, seen.blended,
           seen.compared, seen.pasted, seen.shared + seen.other_shape + seen.past_the_end + seen.aliased + seen.outside, failed);
    return failed ? EXIT_FAILURE : EXIT_SUCCESS;
}
