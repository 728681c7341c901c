/* prepare.c: chachaqom_prepare compared on the matrices, sizes and lengths of chachaqom_refine. */
#include "compare.h"

static int compare_prepared(void)
{
    return compare_on_matrix(&prepare_call, chachaqom_prepare, second_prepare);
}

struct call prepare_call = {
    .name = "prepare",
    .compare = compare_prepared,
    .answerable = { 0, 1, 2, 21, 22, -1 },
    .counted = "rounds at most"
};
