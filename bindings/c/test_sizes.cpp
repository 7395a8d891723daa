// Files with other numbers of ND_MAX_AXES: what they pass to one another has other names, so they don't link. The first file is
// compiled with ND_TEST_TAKES. Prints the sizes of a view and of an iterator, and 0 failed.
#include "ndarray_layout.hpp"
#include "testing_sizes.h"

#include <cstdio>

std::size_t take_layout(const nd_layout *layout);
std::size_t take_view(const nd::view<int> &view);
std::size_t take_rows(const nd::rows<int> &rows);
std::size_t take_cursor(nd::cursor<int, 2> at);

#ifdef ND_TEST_TAKES
std::size_t take_layout(const nd_layout *layout) { return layout->axes; }
std::size_t take_view(const nd::view<int> &view) { return view.size(); }
std::size_t take_rows(const nd::rows<int> &rows) { return rows.size(); }
std::size_t take_cursor(nd::cursor<int, 2> at) { return at.length(1); }
#else
int main() {
    int numbers[6] = {};
    const nd::view<int> view(numbers, 6, {2, 3});
    const bool holds = take_layout(&view.as_c().layout) == 2 && take_view(view) == 6 && take_rows(view.rows()) == 2 && take_cursor(view) == 3;
    std::printf("%zu %zu bytes\n%d failed\n", sizeof(nd_view), sizeof(nd_row_iter), holds ? 0 : 1);
    return holds ? 0 : 1;
}
#endif
