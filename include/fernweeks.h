/* The calls of Fernweeks, a proved reader of router tables. docs/LAYOUT.md says what crosses. Link with target/staticlib/libcollector.a (tools/build.py archive).
   A pointer is never null, also where its count is 0. */
#ifndef FERNWEEKS_H
#define FERNWEEKS_H

#include <stddef.h>
#include <stdint.h>

#ifdef __cplusplus
extern "C" {
#endif

#define FERNWEEKS_STATE_LEN 128
#define FERNWEEKS_ELEMENT_LEN 176

/* what fernweeks_next answers besides refusals */
#define FERNWEEKS_ELEMENT 0
#define FERNWEEKS_END 255

/* refusals */
#define FERNWEEKS_UNREADABLE_HEADER 1
#define FERNWEEKS_NO_COLUMNS 2
#define FERNWEEKS_NO_TIMESTAMP 4
#define FERNWEEKS_SPOILT_STATE 5
#define FERNWEEKS_UNREADABLE_LINE 6
#define FERNWEEKS_TOO_FEW_PLACES 7
#define FERNWEEKS_TOO_SHORT 9

/* 1 for a table, 0 for none */
uint32_t fernweeks_detect(const uint8_t *bytes, size_t bytes_len);

/* 0, or 9, 4, 1, 2 */
uint32_t fernweeks_open(const uint8_t *text, size_t text_len, double timestamp, uint8_t *state, size_t state_len);

/* the line at fault where opening the text answers 1, from 1; else 0 */
uint64_t fernweeks_line_at_fault(const uint8_t *text, size_t text_len);

/* 0 an element, 255 End, or 9, 5, 6, 7 */
uint32_t fernweeks_next(uint8_t *state, size_t state_len, const uint8_t *part, size_t part_len, uint32_t *asns, size_t asns_len, uint8_t *element, size_t element_len);

/* 0, or 9, 5 */
uint32_t fernweeks_turn(uint8_t *state, size_t state_len);

#ifdef __cplusplus
}
#endif

#endif
