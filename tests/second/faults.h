/*
 * faults.h: the faults that can be planted in the second program, so that a comparison can be seen
 * to fail: a list for each call, each fault with its name and its words.
 */
#ifndef SECOND_FAULTS_H
#define SECOND_FAULTS_H

#define FAULTS_OF_REFINE(FAULT) \
    FAULT(UPDATING_WITHIN_A_ROUND, "updating cells within a round") \
    FAULT(STOPPING_AFTER_ROUND_ONE, "stopping after round 1") \
    FAULT(COUNTING_THE_CONFIRMING_ROUND, "counting the confirming round") \
    FAULT(INTERSECTING_UNCONVERTED, "intersecting with the opposite cell unconverted") \
    FAULT(ARC_BEFORE_NODE, "stopping at an empty cell off the diagonal in the node stage") \
    FAULT(TRIPLE_IN_THE_AUTHORS_ORDER, "naming the triple in the author's order") \
    FAULT(RUNNING_SET_FROM_UNIVERSAL, "starting the running set of a triple from 255") \
    FAULT(WORK_AREA_UNCLEARED, "leaving a work area uncleared") \
    FAULT(TAIL_BYTE_CLEARED, "clearing the byte behind the work area's cells too") \
    FAULT(REGIONS_LIMIT_OFF_BY_ONE, "limit of n off by one") \
    FAULT(REGIONS_TAKEN_AS_A_BYTE, "taking n as a byte") \
    FAULT(LENGTH_BEFORE_RANGE, "judging lengths before n") \
    FAULT(WORK_AREA_OF_EXACT_LENGTH, "asking for work areas of exactly the cells' length")

#define FAULTS_OF_PREPARE(FAULT) \
    FAULT(PREPARED_IN_BOTH_AREAS, "preparing: the matrix laid into both areas") \
    FAULT(PREPARED_WITHOUT_THE_ARC_RULE, "preparing: the arc rule looked at and not applied") \
    FAULT(PREPARING_ROUND_ONE_TOO, "preparing: round 1 made too") \
    FAULT(SECOND_AREA_UNCLEARED, "preparing: the second area uncleared by a refusal") \
    FAULT(AREAS_LEFT_BY_NODE, "preparing: both areas left as they were by 21") \
    FAULT(PREPARING_LENGTH_BEFORE_RANGE, "preparing: judging lengths before n") \
    FAULT(PREPARING_WITHOUT_THE_SECOND, "preparing: not asking for a second area") \
    FAULT(PREPARING_REGIONS_TAKEN_AS_A_BYTE, "preparing: taking n as a byte")

#define FAULTS_OF_RUN(FAULT) \
    FAULT(CONFIRMING_ROUND_FREE, "running: the confirming round not counted against the rounds") \
    FAULT(USED_UP_COUNT_ONE_OFF, "running: the count of 24 one off") \
    FAULT(UNFINISHED_COUNT_FROM_NONE, "running: no count with 24") \
    FAULT(WRONG_AREA_AFTER_AN_ODD_NUMBER, "running: the area given named after an odd number") \
    FAULT(ALWAYS_THE_FIRST_AREA, "running: what is in the first area taken in every call") \
    FAULT(OTHER_AREA_OVERWRITTEN_BY_25, "running: the other area overwritten before 25") \
    FAULT(AREAS_CLEARED_BY_25, "running: both areas cleared by 25") \
    FAULT(CONVERSE_UNTESTED, "running: 25 without the converse test") \
    FAULT(DIAGONAL_UNTESTED, "running: 25 without the test of the diagonal") \
    FAULT(EMPTY_SET_UNTESTED, "running: 25 without the test for empty sets") \
    FAULT(UNPREPARED_NAMES_THE_CELL, "running: a cell named with 25") \
    FAULT(NO_ROUND_NO_CHECK, "running: no check where no round is asked for") \
    FAULT(NO_ROUND_ACCEPTED, "running: no round of a finished network accepted") \
    FAULT(ROUND_BEFORE_LOST, "running: the last round's network in both areas after 24") \
    FAULT(UNFINISHED_AREAS_CLEARED, "running: the other area cleared by 24") \
    FAULT(AREA_NAMED_WITH_ACCEPTANCE, "running: an area named with 0") \
    FAULT(ACCEPTED_IN_ONE_AREA, "running: an accepted network in one area alone") \
    FAULT(AREA_ZERO_IS_THE_FIRST, "running: 0 taken for the first area") \
    FAULT(AREA_TAKEN_AS_A_BYTE, "running: taking the area as a byte") \
    FAULT(LENGTH_BEFORE_AREA, "running: judging lengths before the area") \
    FAULT(ROUNDS_TAKEN_AS_32_BITS, "running: taking the rounds as 32 bits") \
    FAULT(RUN_TAIL_BYTE_CLEARED, "running: clearing the byte behind the cells too")

#define FAULTS_OF_READ(FAULT) \
    FAULT(SCENE_LIMIT_OFF_BY_ONE, "limit of the scene's length off by one") \
    FAULT(TOO_MANY_BEFORE_TWICE, "refusing with 8 before 7") \
    FAULT(SIXTY_FIFTH_REGION_OFF_BY_ONE, "limit of declared regions off by one") \
    FAULT(ONLY_THE_SECOND_DECLARED, "looking up B and never A") \
    FAULT(EMPTY_SET_BEFORE_NOT_DECLARED, "refusing with 10 before 9") \
    FAULT(FILED_THE_OTHER_WAY, "filing a statement at (B, A)") \
    FAULT(IDENTIFIER_TAKEN_AS_PLACE, "taking an identifier for a place") \
    FAULT(LEFTOVER_BEFORE_NO_REGION, "refusing with 11 before 1") \
    FAULT(LEFTOVER_PLACE_OFF_BY_ONE, "place of the bytes after End off by one") \
    FAULT(READING_AREAS_UNCLEARED, "leaving the reader's areas uncleared") \
    FAULT(MARKS_OVER_ALL_RECORDS, "marks: the number counted over all records") \
    FAULT(MARKS_FROM_NONE, "marks: statements numbered from 0") \
    FAULT(MARK_OF_WHAT_REMOVES_NOTHING, "marks: a statement that removes nothing takes the mark") \
    FAULT(MARK_OF_THE_FIRST, "marks: the first statement that removed something keeps the mark") \
    FAULT(MARK_THE_OTHER_WAY, "marks: the mark at (B, A)") \
    FAULT(MARKS_IN_ROWS_OF_64, "marks: rows of 64") \
    FAULT(MARKS_LITTLE_ENDIAN, "marks: little-endian") \
    FAULT(MARKS_UNCLEARED, "marks: not cleared by a refusal") \
    FAULT(MARKS_LEFT_BEHIND, "marks: not cleared behind the last row") \
    FAULT(MARKS_OF_ANY_LENGTH, "marks: any length that has room for them taken")

#define FAULTS_OF_WRITE(FAULT) \
    FAULT(WRITING_REGIONS_TAKEN_AS_A_BYTE, "writing: taking n as a byte") \
    FAULT(WRITING_LENGTH_BEFORE_RANGE, "writing: judging lengths before n") \
    FAULT(EVERY_ZERO_BEFORE_TWICE, "writing: looking for 6 at all places before 7 at any") \
    FAULT(EVERY_TWICE_BEFORE_ZERO, "writing: looking for 7 at all places before 6 at any") \
    FAULT(EARLIER_TWIN_NAMED, "writing: naming the earlier twin") \
    FAULT(EMPTY_CELL_BEFORE_IDENTIFIERS, "writing: refusing with 10 before 6 and 7") \
    FAULT(EMPTY_CELL_IN_COLUMN_ORDER, "writing: looking for an empty cell in column order") \
    FAULT(EMPTY_CELL_BY_COLUMN_AND_ROW, "writing: naming an empty cell's column before its row") \
    FAULT(LENGTH_OF_ALL_CELLS, "writing: counting cells of 255 towards the limit") \
    FAULT(WRITING_LIMIT_A_RECORD_LOWER, "writing: limit of the scene's length a record lower") \
    FAULT(NO_ROOM_BEFORE_TOO_LONG, "writing: refusing with 12 before 3") \
    FAULT(NO_ROOM_OFF_BY_ONE, "writing: refusing a buffer exactly as long as the scene") \
    FAULT(NO_ROOM_WITHOUT_THE_END, "writing: leaving the end out of the length that 12 goes by") \
    FAULT(NO_ROOM_WITH_THE_LENGTH, "writing: answering the scene's length with 12") \
    FAULT(BYTE_WRITTEN_BEFORE_A_REFUSAL, "writing: a byte written before a refusal") \
    FAULT(WRITING_WHAT_FITS, "writing: as much as fits written before 12") \
    FAULT(BUFFER_CLEARED_BEHIND, "writing: clearing the buffer behind the scene") \
    FAULT(REGIONS_ANSWERED_BY_WRITING, \
          "writing: answering the region count in place of the length") \
    FAULT(STATEMENTS_IN_COLUMN_ORDER, "writing: statements in column order") \
    FAULT(STATEMENTS_BEFORE_REGIONS, "writing: each row's statements before the next region") \
    FAULT(DIAGONAL_LEFT_OUT, "writing: the diagonal left out") \
    FAULT(LAST_CELL_LEFT_OUT, "writing: the last cell left out") \
    FAULT(WRITTEN_THE_OTHER_WAY, "writing: A and B swapped") \
    FAULT(UNIVERSAL_STATED_TOO, "writing: 255 stated too")

/* All of them; a new call adds its list here. */
#define SECOND_FAULT_LIST(FAULT) \
    FAULTS_OF_REFINE(FAULT) \
    FAULTS_OF_PREPARE(FAULT) \
    FAULTS_OF_RUN(FAULT) \
    FAULTS_OF_READ(FAULT) \
    FAULTS_OF_WRITE(FAULT)

#endif
