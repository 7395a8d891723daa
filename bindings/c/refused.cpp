// What compilers refuse in programs of the headers: each line with the mark, and no other (test_refused).
#include "ndarray_layout.hpp"

__extension__ typedef __int128 wide;
__extension__ typedef unsigned __int128 unsigned_wide;
enum channel { RED, GREEN };
enum class strict { RED, GREEN };

static const std::size_t shape[2] = {2, 2};
static const std::ptrdiff_t strides[2] = {1, 1};
static int numbers[4];
static nd_view elements, bytes;
static std::int32_t answer;

// Coordinates are integers, of no more bits than a size has.
int coordinates(const nd::view<int> &view) {
    int sum = view(0, 1) + view(0u, 1LL) + view(std::size_t{1}, std::ptrdiff_t{0}) + view('\0', short{1}) + view(RED, GREEN);
    sum += *view.find(0, 1L) + (view.find() == nullptr) + *view.find(static_cast<signed char>(1), 1UL);
    sum += view(-0.5, 0);                 // refused
    sum += view(0, 0.5f);                 // refused
    sum += *view.find(0, 0.5L);           // refused
    sum += view(static_cast<wide>(1), 0); // refused
    sum += view(0, unsigned_wide{1});     // refused
    sum += view(true, 0);                 // refused
    sum += *view.find(0, false);          // refused
    sum += view(strict::RED, 0);          // refused
    sum += view(0, &sum);                 // refused
    return sum;
}

// So are those of parts and tiles, which cursors of two axes have.
std::size_t parts(nd::cursor<int, 2> at, nd::cursor<int, 3> cube) {
    std::size_t sum = at.crop(0, RED, 1u, 'a').length(0);
    sum += at.crop(0, 0.5, 1, 1).length(0);       // refused
    sum += at.crop(0, 0, true, 1).length(0);      // refused
    sum += (*at.tiles(2, 0.5f).begin()).length(0); // refused
    sum += cube.crop(0, 0, 1, 1).length(0);       // refused
    return sum;
}

// So are bounds, steps and indices of slices.
std::ptrdiff_t elems() {
    std::ptrdiff_t sum = nd::index(1).start + nd::index(2u).start + nd::range(RED, 2LL, 'a').end + nd::from(short{1}).start;
    static_assert(nd::range(-4, std::size_t{3}, -1).start == -4 && nd::from(1, -1).step == -1 && nd::range(0, 2).step == 1);
    sum += nd::index(0.5).start;            // refused
    sum += nd::index(true).start;           // refused
    sum += nd::index(wide{1}).start;        // refused
    sum += nd::index(strict::RED).start;    // refused
    sum += nd::range(0.5f, 1).start;        // refused
    sum += nd::range(0, 1.5).start;         // refused
    sum += nd::range(0, 1, 0.25L).start;    // refused
    sum += nd::from(0.25L).start;           // refused
    sum += nd::from(0, unsigned_wide{1}).start; // refused
    return sum;
}

// The data of a view aren't an nd_data, which counts elements, and what speaks of elements takes a view.
std::int32_t data_of_views() {
    const nd_data four{1, 4};
    std::int32_t sum = nd_view_over_bytes(0, shape, 2, strides, 2, 1, 4, ND_READ_ONLY, &bytes);
    sum += nd_view_of(&elements.layout, four, ND_OWNED, &elements) + nd_view_check(&bytes, ND_OWNED);
    sum += nd_view_has_overlap(&bytes, &answer);
    sum += nd_view_of(&bytes.layout, bytes.data, ND_OWNED, &elements);               // refused
    sum += nd_layout_check(&bytes.layout, bytes.data, ND_OWNED);                     // refused
    sum += nd_view_from_shape(shape, 2, ND_ROW_MAJOR, bytes.data, ND_OWNED, &bytes); // refused
    sum += nd_layout_has_overlap(&bytes.layout, &answer);                            // refused
    sum += nd_layout_is_contiguous(&bytes.layout, &answer);                          // refused
    sum += nd_layout_is_layout_c(&bytes.layout, &answer);                            // refused
    sum += nd_layout_is_layout_f(&bytes.layout, &answer);                            // refused
    sum += nd_layout_stretch(&bytes.layout, 0, nullptr, nullptr, &answer);           // refused
    sum += static_cast<std::int32_t>(bytes.data.elem_size);                          // refused
    bytes.data = four;                                                               // refused
    return sum;
}

int all() { return coordinates(nd::view<int>(numbers, 4, {2, 2})) + static_cast<int>(elems()) + data_of_views(); }
