// What ndarray_layout.hpp has for rows and cursors, and includes.
#ifndef NDARRAY_LAYOUT_ROWS_HPP
#define NDARRAY_LAYOUT_ROWS_HPP

#include "ndarray_layout.h"

#include <array>
#include <cstddef>
#include <cstdio>
#include <cstdlib>
#include <iterator>
#include <stdexcept>
#include <string>
#include <tuple>
#include <type_traits>
#include <utility>

namespace nd {

// The status with which a call refuses, as which it is read, and where it is known the rule that is broken (ND_RULE_NONE: it
// isn't).
struct fault {
    std::int32_t status;
    nd_reason reason{};
    operator std::int32_t() const { return status; }
    // As a sentence: of the rule, or else of the status.
    [[nodiscard]] std::string text() const {
        if (reason.rule == ND_RULE_NONE) return nd_status_message(status);
        std::string text(nd_reason_text(&reason, nullptr, 0), ' ');
        nd_reason_text(&reason, text.data(), text.size() + 1);
        return text;
    }
};

// What a call refused: `what()` says why, as a sentence.
class error : public std::runtime_error {
public:
    explicit error(const fault &of) : std::runtime_error(of.text()), of_(of) {}
    [[nodiscard]] std::int32_t status() const noexcept { return of_.status; }
    [[nodiscard]] const nd_reason &reason() const noexcept { return of_.reason; }

private:
    fault of_;
};

#ifdef __GNUC__
#define ND_REFUSES [[noreturn, gnu::noinline, gnu::cold]] inline
#else
#define ND_REFUSES [[noreturn]] inline
#endif

// Throws an error; a program without exceptions ends. (Apart from its callers, which are inlined without it.)
ND_REFUSES void refuse(const fault &of) {
#ifdef __cpp_exceptions
    throw error(of);
#else
    std::fprintf(stderr, "ndarray_layout: %s\n", of.text().c_str());
    std::abort();
#endif
}
ND_REFUSES void refuse(std::int32_t status) { refuse(fault{status}); }

inline void expect_ok(std::int32_t status) {
    if (status != ND_OK) refuse(status);
}

// Whether a type is one of coordinates, bounds and steps: integers, and enumerations without `class`, of no more bits than a
// size has. A bool is none, as in Python: `view(row, column == 2)` compares where it should count.
template <class Number>
inline constexpr bool is_coordinate_v = sizeof(Number) <= sizeof(std::size_t) && !std::is_same_v<Number, bool> &&
                                        (std::is_integral_v<Number> ||
                                         (std::is_enum_v<Number> && std::is_convertible_v<Number, std::ptrdiff_t>));

#define ND_EXPECT_COORDINATES(holds) \
    static_assert(holds, "coordinates, bounds and steps are integers, not bool, of no more bits than std::size_t")

// The elements of a row, `stride()` apart, in a range of random access. Where that is 1, `data()` and `size()` are those of a
// std::span. (A position has a sign, with which compilers add where they would multiply, and go over a row of stride 1 by vectors.)
template <class T>
class row {
public:
    class iterator {
    public:
        using iterator_category = std::random_access_iterator_tag;
        using value_type = std::remove_cv_t<T>;
        using difference_type = std::ptrdiff_t;
        using pointer = T *;
        using reference = T &;
        iterator() = default;
        iterator(T *first, std::ptrdiff_t stride, std::ptrdiff_t at) : first_(first), stride_(stride), at_(at) {}
        T &operator*() const { return first_[at_ * stride_]; }
        T *operator->() const { return &**this; }
        T &operator[](std::ptrdiff_t far) const { return *(*this + far); }
        iterator &operator++() { return ++at_, *this; }
        iterator &operator--() { return --at_, *this; }
        iterator operator++(int) { return {first_, stride_, at_++}; }
        iterator operator--(int) { return {first_, stride_, at_--}; }
        iterator &operator+=(std::ptrdiff_t far) { return at_ += far, *this; }
        iterator &operator-=(std::ptrdiff_t far) { return at_ -= far, *this; }
        friend iterator operator+(iterator from, std::ptrdiff_t far) { return from += far; }
        friend iterator operator+(std::ptrdiff_t far, iterator from) { return from += far; }
        friend iterator operator-(iterator from, std::ptrdiff_t far) { return from -= far; }
        friend std::ptrdiff_t operator-(const iterator &to, const iterator &from) { return to.at_ - from.at_; }
        friend bool operator==(const iterator &one, const iterator &other) { return one.at_ == other.at_; }
        friend bool operator!=(const iterator &one, const iterator &other) { return one.at_ != other.at_; }
        friend bool operator<(const iterator &one, const iterator &other) { return one.at_ < other.at_; }
        friend bool operator>(const iterator &one, const iterator &other) { return one.at_ > other.at_; }
        friend bool operator<=(const iterator &one, const iterator &other) { return one.at_ <= other.at_; }
        friend bool operator>=(const iterator &one, const iterator &other) { return one.at_ >= other.at_; }

    private:
        T *first_ = nullptr;
        std::ptrdiff_t stride_ = 0;
        std::ptrdiff_t at_ = 0;
    };

    row(T *first, nd_row of) : first_(first), of_(of) {}
    T &operator[](std::size_t at) const { return first_[static_cast<std::ptrdiff_t>(at) * of_.stride]; }
    [[nodiscard]] std::size_t size() const { return of_.len; }
    [[nodiscard]] std::ptrdiff_t stride() const { return of_.stride; }
    [[nodiscard]] T *data() const { return first_; }
    iterator begin() const { return {first_, of_.stride, 0}; }
    iterator end() const { return {first_, of_.stride, static_cast<std::ptrdiff_t>(of_.len)}; }

private:
    T *first_;
    nd_row of_;
};

// (A compiler guesses from where a stride comes that it is seldom 1, and then makes no loop of its own for 1.)
inline std::ptrdiff_t any_stride(std::ptrdiff_t stride) {
#ifdef __GNUC__
    __asm__("" : "+r"(stride));
#endif
    return stride;
}

// What depends on ND_MAX_AXES, where it isn't 32, has names of its own, which link with no others.
#ifdef ND_SIZED
inline namespace ND_SIZED(axes) {
using nd_layout = ND_SIZED(nd_layout);
using nd_view = ND_SIZED(nd_view);
using nd_row_iter = ND_SIZED(nd_row_iter);
using nd_rows_iter = ND_SIZED(nd_rows_iter);
}
#define ND_BEGIN_SIZED inline namespace ND_SIZED(axes) {
#define ND_END_SIZED }
#else
#define ND_BEGIN_SIZED
#define ND_END_SIZED
#endif
ND_BEGIN_SIZED

// The rows of a view, an input range: `for (nd::row<T> row : view.rows())`.
template <class T>
class rows {
public:
    struct sentinel {};
    class iterator {
    public:
        using iterator_category = std::input_iterator_tag;
        using value_type = row<T>;
        using difference_type = std::ptrdiff_t;
        using pointer = void;
        using reference = row<T>;
        iterator(T *data, const nd_row_iter &left)
            : data_(data), len_(left.len), stride_(any_stride(left.stride)), left_(left) {
            ++*this;
        }
        row<T> operator*() const { return {data_ + start_, nd_row{start_, len_, stride_}}; }
        iterator &operator++() {
            nd_row now{0, 0, 0};
            has_row_ = nd_next_row(&left_, &now) != 0;
            start_ = now.start;
            return *this;
        }
        void operator++(int) { ++*this; }
        friend bool operator==(const iterator &at, sentinel) { return !at.has_row_; }
        friend bool operator!=(const iterator &at, sentinel) { return at.has_row_; }

    private:
        T *data_;
        std::size_t len_; // (of all rows, as is the stride)
        std::ptrdiff_t stride_;
        std::size_t start_ = 0;
        nd_row_iter left_;
        bool has_row_ = false;
    };

    rows(T *data, const nd_row_iter &all_of) : data_(data), all_of_(all_of) {}
    iterator begin() const { return {data_, all_of_}; }
    sentinel end() const { return {}; }
    [[nodiscard]] std::size_t size() const { return all_of_.left; }

private:
    T *data_;
    nd_row_iter all_of_;
};

// The rows of several views of one shape in step, an input range of tuples that is gone over once: `joined_rows`.
template <class... T>
class rows_in_step {
    static_assert(sizeof...(T) > 0 && sizeof...(T) <= ND_MAX_VIEWS, "rows of 1 to ND_MAX_VIEWS views");

public:
    struct sentinel {};
    class iterator {
    public:
        using iterator_category = std::input_iterator_tag;
        using value_type = std::tuple<row<T>...>;
        using difference_type = std::ptrdiff_t;
        using pointer = void;
        using reference = value_type;
        explicit iterator(rows_in_step &of) : of_(&of) {}
        value_type operator*() const { return of_->now(std::index_sequence_for<T...>{}); }
        iterator &operator++() { return of_->next(), *this; }
        void operator++(int) { ++*this; }
        friend bool operator==(const iterator &at, sentinel) { return !at.has_row(); }
        friend bool operator!=(const iterator &at, sentinel) { return at.has_row(); }

    private:
        bool has_row() const { return of_->has_row_; }
        rows_in_step *of_;
    };

    rows_in_step(std::tuple<T *...> data, const nd_rows_iter &left) : data_(data), left_(left) {}
    iterator begin() { return next(), iterator(*this); }
    sentinel end() const { return {}; }
    [[nodiscard]] std::size_t size() const { return left_.left; }

private:
    void next() { has_row_ = nd_next_rows(&left_, now_.data()) != 0; }
    template <std::size_t... At>
    std::tuple<row<T>...> now(std::index_sequence<At...>) const {
        return {row<T>(std::get<At>(data_) + now_[At].start, now_[At])...};
    }

    std::tuple<T *...> data_;
    nd_rows_iter left_;
    std::array<nd_row, sizeof...(T)> now_{};
    bool has_row_ = false;
};

template <class T>
class tiles;

// The elements of a view of so many axes, by value: for loops that write, as a picture's do by bytes. A write through a `char *`
// may change a view that is passed by reference as far as a compiler knows, which then reads it again for each element; a cursor
// is no such thing. `const auto at = view.cursor<2>();`, and in the loop `at.row(y)` or `at(y, x)`; or a parameter, to which a view is
// passed as it is: `void invert(nd::cursor<unsigned char, 2> picture)`.
template <class T, std::size_t Axes>
class cursor {
    static_assert(Axes <= ND_MAX_AXES, "no view has so many axes");

public:
    cursor(T *data, const nd_layout &layout) : data_(data), start_(layout.start) {
        for (std::size_t axis = 0; axis < Axes; axis++) {
            shape_[axis] = layout.shape[axis];
            strides_[axis] = layout.strides[axis];
        }
    }
    cursor(T *data, const nd_cursor2 &of)
        : data_(data), start_(of.start), shape_{of.shape[0], of.shape[1]}, strides_{of.strides[0], of.strides[1]} {
        static_assert(Axes == 2, "parts and tiles have two axes");
    }
    template <class Other, class = std::enable_if_t<std::is_same_v<const Other, T>>>
    cursor(const cursor<Other, Axes> &other)
        : data_(other.data_), start_(other.start_), shape_(other.shape_), strides_(other.strides_) {}

    [[nodiscard]] std::size_t length(std::size_t axis) const {
        if (axis >= Axes) refuse(ND_OUT_OF_BOUNDS);
        return shape_[axis];
    }

    // The element of an index, each coordinate compared; null, or an error, where it is no index.
    template <class... Coordinates>
    [[nodiscard]] T *find(Coordinates... coordinates) const {
        if (!is_index(axes{}, coordinates...)) return nullptr;
        ND_ASSUME(data_ != nullptr);
        return &at(axes{}, coordinates...);
    }
    template <class... Coordinates>
    T &operator()(Coordinates... coordinates) const {
        if (!is_index(axes{}, coordinates...)) refuse(ND_OUT_OF_BOUNDS);
        return at(axes{}, coordinates...);
    }

    // The row along the last axis at the other coordinates, after one test for all of its elements: `for (auto &item : at.row(y))`
    // takes at most 1.1 times a loop by hand, by vectors, which compilers seldom make of a loop that compares each coordinate.
    template <class... Coordinates>
    [[nodiscard]] nd::row<T> row(Coordinates... coordinates) const {
        using outer = std::make_index_sequence<Axes - 1>;
        if (!is_index(outer{}, coordinates...)) refuse(ND_OUT_OF_BOUNDS);
        const std::size_t start = place(outer{}, coordinates...);
        return {data_ + start, nd_row{start, shape_[Axes - 1], strides_[Axes - 1]}};
    }

    // Of two axes: a part, `rows` rows and `columns` columns from (top, left) on, after four comparisons; ND_OUT_OF_BOUNDS where it
    // isn't within. And all tiles, `for (const auto tile : at.tiles(16, 16))`: the last ones at the right and at the bottom have the
    // rest. Compilers make vectors of a loop over a part where its lengths are constants.
    template <class Top, class Left, class Rows, class Columns>
    [[nodiscard]] cursor crop(Top top, Left left, Rows rows, Columns columns) const {
        const std::size_t high = coordinate(rows), wide = coordinate(columns);
        const nd_cursor2 part = nd_cursor2_crop(as_c(), coordinate(top), coordinate(left), high, wide);
        if (part.shape[0] != high || part.shape[1] != wide) refuse(ND_OUT_OF_BOUNDS);
        return {data_, nd_cursor2{part.start, {high, wide}, {part.strides[0], part.strides[1]}}}; // (lengths that compilers know)
    }
    template <class Rows, class Columns>
    [[nodiscard]] nd::tiles<T> tiles(Rows rows, Columns columns) const {
        return {data_, nd_cursor2_tiles(as_c(), coordinate(rows), coordinate(columns))};
    }
    [[nodiscard]] nd_cursor2 as_c() const {
        static_assert(Axes == 2, "parts and tiles have two axes");
        return {start_, {shape_[0], shape_[1]}, {strides_[0], strides_[1]}};
    }

private:
    template <class, std::size_t>
    friend class cursor;
    using axes = std::make_index_sequence<Axes>;
    template <class Number>
    static std::size_t coordinate(Number number) {
        ND_EXPECT_COORDINATES(is_coordinate_v<Number>);
        return static_cast<std::size_t>(number);
    }
    template <std::size_t... Axis, class... Coordinates>
    bool is_index(std::index_sequence<Axis...>, Coordinates... coordinates) const {
        static_assert(sizeof...(Coordinates) == sizeof...(Axis), "one coordinate for each axis, of a row for each but the last");
        ND_EXPECT_COORDINATES((is_coordinate_v<Coordinates> && ...));
        return ((static_cast<std::size_t>(coordinates) < shape_[Axis]) && ...);
    }
    template <std::size_t... Axis, class... Coordinates>
    ND_WRAPS std::size_t place(std::index_sequence<Axis...>, Coordinates... coordinates) const {
        return (start_ + ... + (static_cast<std::size_t>(coordinates) * static_cast<std::size_t>(strides_[Axis])));
    }
    template <class... Coordinates>
    T &at(axes of, Coordinates... coordinates) const {
        return data_[place(of, coordinates...)];
    }

    T *data_;
    std::size_t start_;
    std::array<std::size_t, Axes> shape_{};
    std::array<std::ptrdiff_t, Axes> strides_{};
};

// The tiles of a cursor of two axes, an input range.
template <class T>
class tiles {
public:
    struct sentinel {};
    class iterator {
    public:
        using iterator_category = std::input_iterator_tag;
        using value_type = cursor<T, 2>;
        using difference_type = std::ptrdiff_t;
        using pointer = void;
        using reference = value_type;
        iterator(T *data, const nd_tiles2 &left) : data_(data), left_(left) { ++*this; }
        value_type operator*() const { return {data_, now_}; }
        iterator &operator++() { return has_tile_ = nd_next_tile2(&left_, &now_) != 0, *this; }
        void operator++(int) { ++*this; }
        friend bool operator==(const iterator &at, sentinel) { return !at.has_tile_; }
        friend bool operator!=(const iterator &at, sentinel) { return at.has_tile_; }

    private:
        T *data_;
        nd_tiles2 left_;
        nd_cursor2 now_{};
        bool has_tile_ = false;
    };

    tiles(T *data, const nd_tiles2 &all_of) : data_(data), all_of_(all_of) {}
    iterator begin() const { return {data_, all_of_}; }
    sentinel end() const { return {}; }

private:
    T *data_;
    nd_tiles2 all_of_;
};

ND_END_SIZED
} // namespace nd

#endif
