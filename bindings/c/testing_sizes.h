/* The names by which tests go of the types whose names end with ND_MAX_AXES, where it isn't 32. */
#include "ndarray_layout.h"

#ifdef ND_SIZED
typedef ND_SIZED(nd_layout) nd_layout;
typedef ND_SIZED(nd_view) nd_view;
typedef ND_SIZED(nd_row_iter) nd_row_iter;
typedef ND_SIZED(nd_rows_iter) nd_rows_iter;
#endif
