// Loops from C++ over accepted views, each beside one written by hand.
#include "ndarray_layout.hpp"

#include "loops.h"

#include <cstdint>
#include <vector>

// The elements of a view by hand: of one that nothing compares, and of one whose places are compared with the length.
template <class T, bool IsChecked, class Each>
static std::size_t by_hand(const nd_view *view, void *items, Each each) {
    const std::size_t start = view->layout.start, rows = view->layout.shape[0], columns = view->layout.shape[1], len = view->data.len;
    const auto down = static_cast<std::size_t>(view->layout.strides[0]), right = static_cast<std::size_t>(view->layout.strides[1]);
    T *const first = static_cast<T *>(items);
    std::size_t sum = 0;
    for (std::size_t row = 0; row < rows; row++) {
        for (std::size_t column = 0; column < columns; column++) {
            const std::size_t place = start + row * down + column * right;
            if (IsChecked && place >= len) return 1;
            sum += each(first[place], row, column);
        }
    }
    return sum;
}

// The elements of a view by the calls of a cursor, or of a view by value.
template <class At, class Each>
static std::size_t by_call(const At at, Each each) {
    std::size_t sum = 0;
    for (std::size_t row = 0; row < at.length(0); row++)
        for (std::size_t column = 0; column < at.length(1); column++) sum += each(at(row, column), row, column);
    return sum;
}
template <class At, class Each>
static std::size_t by_find(const At at, Each each) {
    std::size_t sum = 0;
    for (std::size_t row = 0; row < at.length(0); row++) {
        for (std::size_t column = 0; column < at.length(1); column++) {
            auto *const found = at.find(row, column);
            if (found == nullptr) return 1;
            sum += each(*found, row, column);
        }
    }
    return sum;
}

template <class T>
static nd::view<T> view_of(const nd_view *view, void *items) {
    return nd::view<T>(static_cast<T *>(items), view->data.len, view->layout);
}
template <class T>
static std::size_t put(T &item, std::size_t row, std::size_t column) {
    item = static_cast<T>(row + column);
    return 0;
}
template <class T>
static std::size_t get(T &item, std::size_t, std::size_t) {
    return item;
}

// The loops with a function that takes each element.
template <class T, std::size_t (*Each)(T &, std::size_t, std::size_t)>
struct loops {
    static constexpr auto each = [](T &item, std::size_t row, std::size_t column) { return Each(item, row, column); };
    static std::size_t hand(const nd_view *view, void *items) { return by_hand<T, false>(view, items, each); }
    static std::size_t checked(const nd_view *view, void *items) { return by_hand<T, true>(view, items, each); }
    static std::size_t cursor(const nd_view *view, void *items) { return by_call(view_of<T>(view, items).template cursor<2>(), each); }
    static std::size_t value(const nd_view *view, void *items) { return by_call(view_of<T>(view, items), each); }
    static std::size_t find(const nd_view *view, void *items) { return by_find(view_of<T>(view, items).template cursor<2>(), each); }
    static std::size_t find_in_view(const nd_view *view, void *items) { return by_find(view_of<T>(view, items), each); }
};

// Rows, of which a loop by hand knows that their stride is 1.
template <class T>
struct rows {
    static std::size_t changed(const nd_view *view, void *items) {
        for (const nd::row<T> row : view_of<T>(view, items).rows())
            for (T &item : row) item = static_cast<T>(item + 3);
        return 0;
    }
    static std::size_t changed_by_hand(const nd_view *view, void *items) {
        const nd_layout &of = view->layout;
        for (std::size_t row = 0; row < of.shape[0]; row++) {
            T *const first = static_cast<T *>(items) + of.start + row * static_cast<std::size_t>(of.strides[0]);
            for (std::size_t column = 0, count = of.shape[1]; column < count; column++) first[column] = static_cast<T>(first[column] + 3);
        }
        return 0;
    }
    static std::size_t summed(const nd_view *view, void *items) {
        std::size_t total = 0;
        for (const nd::row<T> row : view_of<T>(view, items).rows())
            for (const T &item : row) total += item;
        return total;
    }
    static std::size_t summed_by_hand(const nd_view *view, void *items) {
        const nd_layout &of = view->layout;
        std::size_t total = 0;
        for (std::size_t row = 0; row < of.shape[0]; row++) {
            const T *const first = static_cast<const T *>(items) + of.start + row * static_cast<std::size_t>(of.strides[0]);
            for (std::size_t column = 0; column < of.shape[1]; column++) total += first[column];
        }
        return total;
    }
};

template <class T>
static void print_elements(const char *type, const nd_view *view, void *items) {
    using written = loops<T, put<T>>;
    using read = loops<T, get<T>>;
    print_row("C++: a cursor, written", type, written::cursor, written::hand, view, items);
    print_row("C++: a cursor, read", type, read::cursor, read::hand, view, items);
    print_row("C++: `find` of a cursor, written", type, written::find, written::checked, view, items);
    print_row("C++: a view by value, written", type, written::value, written::checked, view, items);
    print_row("C++: a view by value, read", type, read::value, read::checked, view, items);
    print_row("C++: `find` of a view by value, written", type, written::find_in_view, written::checked, view, items);
    print_row("C++: for each of a row, changed", type, rows<T>::changed, rows<T>::changed_by_hand, view, items);
    print_row("C++: for each of a row, read", type, rows<T>::summed, rows<T>::summed_by_hand, view, items);
}

int main(int count, char **words) {
    const std::size_t lines[2] = {1000, 2000};
    const nd_slice_elem half[2] = {ND_ALL, ND_RANGE(3, 1003)};
    nd_view view;
    read_rounds(count, words);
    must(nd_view_from_shape(lines, 2, ND_ROW_MAJOR, nd_data{2, 2000000}, ND_OWNED, &view));
    must(nd_layout_slice(&view.layout, half, 2, ND_STRICT, &view.layout));
    std::vector<std::uint16_t> items(2000000, 5);
    print_elements<unsigned char>(": bytes", &view, items.data());
    print_elements<std::uint16_t>(": 16 bits", &view, items.data());
    return 0;
}
