/* Visordate: private lookups, for callers in C.
 *
 * Three calls make one lookup: visordate_request makes the queries for two hosts, visordate_answer is a host's answer to its
 * query, and visordate_recover reads the entry from the two answers. The family is that of the words of h letters from an
 * alphabet of q, a host's table is a row of digits, and every digit is one byte from 0 to 5.
 *
 * Each call returns 0, or the number of the refusal:
 *
 *   1  a row has another length than it must
 *   2  a digit is above 5
 *   3  a number is outside its limits, or a count is not the one it must equal
 *   6  the position is not below the count
 *   7  fewer tape digits are left than a request takes
 *   8  the sheets are at odds
 *
 * Where there are several reasons to refuse, the first in the order that stands at the call counts. A call that refuses writes
 * nothing: every row is left as it was. No call allocates memory, keeps anything from one call to the next, or reads or writes
 * anything but its rows.
 *
 * The library needs memcpy and memmove, and nothing else from outside.
 *
 * A row is a pointer and its length in bytes. The rows of one call do not overlap. A row of length 0 may have any pointer, NULL too;
 * any other has to point at so many bytes.
 */
#ifndef VISORDATE_H
#define VISORDATE_H

#include <stddef.h>
#include <stdint.h>

#ifdef __cplusplus
extern "C" {
#endif

/* How many digits a query has (the dimension, k) and how many a sheet has, for words of h letters from an alphabet of q: h from 1 to 5, q
 * from 2 to 16. Both macros use their arguments more than once. There are q to the power h positions. */
#define VISORDATE_DIMENSION(h, q) (1 + (size_t)(h) * (q) + (size_t)(h) * ((h) - 1) / 2 * (q) * (q))
#define VISORDATE_SHEET(h, q) (6 * (1 + VISORDATE_DIMENSION(h, q)))

/* A request: the two queries of a lookup.
 *
 *   h, q      the letters of a word, 1 to 5, and of the alphabet, 2 to 16
 *   position  the position to look up, below q to the power h
 *   tape      the tape digits that are left: drawn at random, and none of them used before
 *   first     room for the first host's query, k = VISORDATE_DIMENSION(h, q) bytes; what it holds before doesn't matter
 *   second    room for the second host's, likewise
 *   shift     room for one byte: the shift, which visordate_recover needs
 *
 * Takes the first k tape digits. They are the first query, and added to v(position), digit by digit, they are the second. The
 * caller then moves on in its tape by k digits, whatever becomes of the lookup: those digits must never be used again, or the hosts may
 * tell what was asked. Where the request is refused it used none.
 *
 * The position and the shift stay with the caller. A host is sent its own query, and neither of the two, nor the other's query.
 *
 * Refuses, in this order: 3 for h, then for q; 1 for the length of first, of second, of shift; 6; 7 if the tape has fewer than k
 * digits; 2 for any byte of the tape that is above 5, also beyond the first k.
 */
uint32_t visordate_request(uint32_t h, uint32_t q, uint32_t position, const uint8_t *tape, size_t tape_len,
    uint8_t *first, size_t first_len, uint8_t *second, size_t second_len, uint8_t *shift, size_t shift_len);

/* An answer: what a host adds to a sheet for a query.
 *
 *   h, q      as above
 *   table     the host's table, one digit for each position, q to the power h of them
 *   query     the query, k digits
 *   sheet     the sheet, VISORDATE_SHEET(h, q) digits: the answer is added to what it holds, digit by digit modulo 6. For a lookup
 *             it begins as zeros.
 *
 * Refuses, in this order: 3 for h, then for q; 3 if the table has not 1 to 1,048,576 bytes; 2 for a byte of the table above 5; 3 if
 * the table has not one digit for each position; 1 for the length of the query, of the sheet; 2 for a byte above 5 in the
 * query, in the sheet.
 */
uint32_t visordate_answer(uint32_t h, uint32_t q, const uint8_t *table, size_t table_len,
    const uint8_t *query, size_t query_len, uint8_t *sheet, size_t sheet_len);

/* A recovery: the entry that two sheets come to. It ends the lookup, also where it is refused: to try again, request anew, with
 * digits that are further on.
 *
 *   h, q      as above
 *   position  the position that was requested
 *   shift     the one byte that the request wrote
 *   first     the first host's sheet, VISORDATE_SHEET(h, q) digits
 *   second    the second host's, likewise
 *   entry     room for one byte: the entry, a digit; what it holds before doesn't matter
 *
 * Refuses, in this order: 3 for h, then for q; 1 for the length of shift, of first, of second, of entry; 6; 2 if the shift is above
 * 5, or a byte in first, or in second; 8 if the sheets are at odds.
 */
uint32_t visordate_recover(uint32_t h, uint32_t q, uint32_t position, const uint8_t *shift, size_t shift_len,
    const uint8_t *first, size_t first_len, const uint8_t *second, size_t second_len, uint8_t *entry, size_t entry_len);

#ifdef __cplusplus
}
#endif

#endif
