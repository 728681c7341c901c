/*
 * second.h: the second program, written from the rules alone and with no line of the library, to
 * compare the library with. Its calls have the signatures and the meaning of those in chachaqom.h.
 */
#ifndef SECOND_H
#define SECOND_H

#include "faults.h"

#include <stddef.h>
#include <stdint.h>

#define SECOND_FAULT_NAME(name, words) SECOND_FAULT_##name,
enum { SECOND_FAULT_NONE, SECOND_FAULT_LIST(SECOND_FAULT_NAME) SECOND_FAULTS };
#undef SECOND_FAULT_NAME

/* The planted fault; SECOND_FAULT_NONE at the start. */
extern int second_fault;

/* The fault in words. */
const char *second_fault_name(int fault);

uint32_t second_refine(size_t n, const uint8_t *cells, size_t cells_length,
                       uint8_t *first, size_t first_length,
                       uint8_t *second, size_t second_length,
                       uint8_t *answer, size_t answer_length);

uint32_t second_prepare(size_t n, const uint8_t *cells, size_t cells_length,
                        uint8_t *first, size_t first_length,
                        uint8_t *second, size_t second_length,
                        uint8_t *answer, size_t answer_length);

uint32_t second_run(size_t n, size_t area, size_t rounds,
                    uint8_t *first, size_t first_length,
                    uint8_t *second, size_t second_length,
                    uint8_t *answer, size_t answer_length);

uint32_t second_read(const uint8_t *scene, size_t scene_length,
                     uint8_t *identifiers, size_t identifiers_length,
                     uint8_t *cells, size_t cells_length,
                     uint8_t *marks, size_t marks_length,
                     uint8_t *answer, size_t answer_length);

uint32_t second_write(size_t n, const uint8_t *identifiers, size_t identifiers_length,
                      const uint8_t *cells, size_t cells_length,
                      uint8_t *buffer, size_t buffer_length,
                      uint8_t *answer, size_t answer_length);

/* The report on a scene, as text; its length. Every report fits into so many bytes. */
#define SECOND_REPORT_ROOM 131072
size_t second_report(const uint8_t *scene, size_t scene_length, char *text);

#endif
