/* read.c: chachaqom_read compared on scenes, whole and damaged; accepted ones are written again. */
#include "compare.h"

static struct lent lent_scene, lent_identifiers, lent_cells, lent_marks, lent_answer;

static uint32_t read_by(int program)
{
    return (program == LIBRARY ? chachaqom_read : second_read)(
        lent_to(&lent_scene, program), lent_scene.length,
        lent_to(&lent_identifiers, program), lent_identifiers.length,
        lent_to(&lent_cells, program), lent_cells.length,
        lent_to(&lent_marks, program), lent_marks.length,
        lent_to(&lent_answer, program), lent_answer.length);
}

static int compare_lent(void)
{
    uint32_t library = read_by(LIBRARY), other = read_by(SECOND_PROGRAM);

    return returned_alike(&read_call, library, other)
           && area_alike(&lent_answer) && area_alike(&lent_identifiers) && area_alike(&lent_cells)
           && area_alike(&lent_marks) && input_alike(&lent_scene);
}

static int writes_what_was_read(void)
{
    if (lent_answer.length != CHACHAQOM_ANSWER_LENGTH
        || answered(&lent_answer, CHACHAQOM_ANSWER_NUMBER) != CHACHAQOM_ACCEPTED)
        return 1;
    read_call.count++;
    return compare_written_again(answered(&lent_answer, CHACHAQOM_ANSWER_COUNT),
                                 lent_to(&lent_identifiers, LIBRARY),
                                 lent_to(&lent_cells, LIBRARY), scene_length);
}

static int compare_scene(void)
{
    size_t lengths[4] = { CHACHAQOM_IDENTIFIERS_LENGTH, CHACHAQOM_CELLS_LENGTH,
                          CHACHAQOM_MARKS_LENGTH, CHACHAQOM_ANSWER_LENGTH };
    size_t damages = below(4);

    build_scene();
    while (damages-- > 0)
        damage_scene();
    if (once_in(200))
        scene_length = 0;
    if (once_in(15)) {
        size_t which = below(4);

        lengths[which] = hostile_length(lengths[which]);
    }
    lend_input(&lent_scene, "scene", scene, scene_length);
    lend(&lent_identifiers, "identifiers", lengths[0]);
    lend(&lent_cells, "cells", lengths[1]);
    lend(&lent_marks, "marks", lengths[2]);
    lend(&lent_answer, "answer", lengths[3]);
    return compare_lent() && writes_what_was_read();
}

struct call read_call = {
    .name = "read",
    .compare = compare_scene,
    .answerable = { 0, 1, 2, 3, 4, 5, 6, 7, 8, 9, 10, 11, -1 },
    .counted = "scenes written again"
};
