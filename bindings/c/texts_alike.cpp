// What C++ says of the calls that texts_alike.c reads: what() of nd::error, `no rule is broken` where there is none, or `-` where
// C++ has no such call.
#include "ndarray_layout.hpp"

#include <functional>
#include <iostream>
#include <map>
#include <sstream>
#include <vector>

namespace {

using sizes = std::vector<std::size_t>;
using strides = std::vector<std::ptrdiff_t>;
using elems = std::vector<nd::elem>;

struct call {
    std::int32_t choice;
    std::size_t start;
    sizes shape;
    strides steps;
    std::size_t one, other;
    sizes list;
    elems slice;
};

struct eight {
    unsigned char bytes[8];
};

// The numbers with a comma after each, or `-`.
template <class Number>
std::vector<Number> read_list(std::istream &from) {
    std::vector<Number> list;
    std::string word, one;
    from >> word;
    if (word == "-") return list;
    for (std::istringstream each(word); std::getline(each, one, ',');)
        list.push_back(std::is_signed_v<Number> ? static_cast<Number>(std::stoll(one)) : static_cast<Number>(std::stoull(one)));
    return list;
}

elems read_elems(std::istream &from) {
    const auto numbers = read_list<std::ptrdiff_t>(from);
    elems found;
    for (auto of = numbers.begin(); of != numbers.end(); of += 5)
        found.push_back({static_cast<std::int32_t>(of[0]), static_cast<std::int32_t>(of[1]), of[2], of[3], of[4]});
    return found;
}

// Calls with a list that is written in braces elsewhere.
template <class Item, class Call>
void with(const std::vector<Item> &v, Call call) {
    using list = std::initializer_list<Item>;
    switch (v.size()) {
    case 0: return call(list{});
    case 1: return call(list{v[0]});
    case 2: return call(list{v[0], v[1]});
    case 3: return call(list{v[0], v[1], v[2]});
    case 4: return call(list{v[0], v[1], v[2], v[3]});
    case 5: return call(list{v[0], v[1], v[2], v[3], v[4]});
    case 6: return call(list{v[0], v[1], v[2], v[3], v[4], v[5]});
    default: std::abort();
    }
}

// The view of strides from the lowest start, over so many elements that are somewhere.
template <class T>
nd::view<T> from_strides(const call &of, std::size_t len) {
    T *const nowhere = nullptr;
    std::optional<nd::view<T>> found;
    with(of.shape, [&](auto shape) { with(of.steps, [&](auto steps) { found.emplace(nowhere, len, shape, steps); }); });
    return *found;
}

template <class T>
nd::view<T> from_start(const call &of, std::size_t len) {
    T *const nowhere = nullptr;
    nd_layout layout{of.start, of.shape.size(), {}, {}};
    std::copy(of.shape.begin(), of.shape.end(), layout.shape);
    std::copy(of.steps.begin(), of.steps.end(), layout.strides);
    return nd::view<T>(nowhere, len, layout);
}

// By the size of an element, and whether it is written.
#define BY_ELEMENT(make, of) \
    ((of).one == 1 ? ((of).choice ? void(make<char>(of, (of).other)) : void(make<const char>(of, (of).other))) \
                   : ((of).choice ? void(make<eight>(of, (of).other)) : void(make<const eight>(of, (of).other))))

constexpr std::size_t no_end = static_cast<std::size_t>(-1);

nd::view<const char> of_layout(const call &of) { return from_strides<const char>(of, no_end); }

const std::map<std::string, void (*)(const call &)> calls{
    {"layout_start", [](const call &of) { BY_ELEMENT(from_strides, of); }},
    {"check_layout", [](const call &of) { BY_ELEMENT(from_start, of); }},
    {"slice_view", [](const call &of) {
         const auto view = from_start<const char>(of, no_end);
         with(of.slice, [&](auto slice) { (void)view.slice(slice, of.choice); });
     }},
    {"permuted_axes", [](const call &of) { with(of.list, [&](auto list) { (void)of_layout(of).permuted_axes(list); }); }},
    {"reshape", [](const call &of) { with(of.list, [&](auto list) { (void)of_layout(of).reshape(list, of.choice); }); }},
    {"broadcast", [](const call &of) { with(of.list, [&](auto list) { (void)of_layout(of).broadcast(list); }); }},
    {"windows", [](const call &of) { with(of.list, [&](auto list) { (void)of_layout(of).windows(list); }); }},
    {"exact_chunks", [](const call &of) { with(of.list, [&](auto list) { (void)of_layout(of).exact_chunks(list); }); }},
    {"split_at", [](const call &of) { (void)from_start<const char>(of, no_end).split_at(of.one, of.other); }},
};

std::string said(const std::string &name, const call &of) {
    const auto found = calls.find(name);
    if (found == calls.end()) return "-";
    try {
        found->second(of);
    } catch (const nd::error &error) {
        return error.what();
    }
    return "no rule is broken";
}

} // namespace

int main() {
    std::ios::sync_with_stdio(false);
    std::string name;
    call of;
    while (std::cin >> name >> of.choice >> of.start) {
        of.shape = read_list<std::size_t>(std::cin);
        of.steps = read_list<std::ptrdiff_t>(std::cin);
        std::cin >> of.one >> of.other;
        of.list = read_list<std::size_t>(std::cin);
        of.slice = read_elems(std::cin);
        std::cout << said(name, of) << '\n';
    }
}
