/*
 * The auditor's static library: checks of policies and logs, duals, residuals of policies over logs, logs as
 * comma-separated text, and policies in the TPTP typed form.
 *
 * Tables, policies, logs, scratch and buffers are arrays of signed 32-bit words; texts, and the buffer that one is
 * written to, are arrays of bytes. Each is passed as a pointer and the number of its words or bytes, which may be any
 * number, 0 included; the pointer must be good for so many of them, and not null. A call keeps no pointer. It only
 * reads tables, policies, logs and texts, which may overlap each other. Scratch, buffer and detail, which it writes,
 * must not overlap anything else.
 *
 * Each call returns a number: 0 if it is accepted, else the number of the first question that was answered with "no".
 * To *detail it writes what it counts if it is accepted, else the place that belongs to the question:
 *
 *     1  table           the first bad predicate; 0 if the length is bad
 *     2  policy length   0
 *     3  shape           the word where the node begins, where one is missing, or the first one behind the tree
 *     4  level           the word where the node begins; the byte of a 257th parenthesis that a text opens at once
 *     5  predicate       the word where the node begins
 *     6  variable        the same
 *     7  mode            the word where the atom, "some" or quantifier begins
 *     8  log length      0
 *     9  row             the row
 *    10  repeated atom   the row
 *    11  scratch         0
 *    12  room            0
 *    13  text of a log   the first byte that RFC 4180 does not allow there; the length if the text ends too soon
 *    14  record          the first record that is not a row, or not a good one
 *    15  text of a       the first byte that the TPTP typed form, as it is read here, does not allow there; the length
 *        policy          if the text ends too soon
 *
 * Words, predicates, rows, bytes and records are counted from 0. 13, 14 and 15 are asked right after 1.
 */
#ifndef VITRINEHAWK_H
#define VITRINEHAWK_H

#include <stddef.h>
#include <stdint.h>

#ifdef __cplusplus
extern "C" {
#endif

/* Checks a policy (questions 1 to 7). Counts its greatest level. */
uint32_t vh_check_policy(const int32_t *table, size_t table_len, const int32_t *policy, size_t policy_len,
                         uint64_t *detail);

/* Checks a log (questions 1 and 8 to 10). Counts its rows. */
uint32_t vh_check_log(const int32_t *table, size_t table_len, const int32_t *log, size_t log_len, uint64_t *detail);

/*
 * Writes the dual of a policy (questions 1 to 7 and 12). Counts its words. The rest of the buffer, or all of it if the
 * call is refused, becomes zero.
 */
uint32_t vh_dual(const int32_t *table, size_t table_len, const int32_t *policy, size_t policy_len, int32_t *buffer,
                 size_t buffer_len, uint64_t *detail);

/*
 * Writes the residual of a policy over a log (questions 1 to 12). Counts its words. The rest of the buffer, or all of
 * it if the call is refused, becomes zero. Scratch is room to work in, 17 words a place: what stands in it before makes
 * no difference, and all of it becomes zero. After 11 or 12 the same call with more scratch or a larger buffer may be
 * accepted; a residual of more than 1,048,576 words is refused with 12 in any case.
 */
uint32_t vh_reduce(const int32_t *table, size_t table_len, const int32_t *policy, size_t policy_len, const int32_t *log,
                   size_t log_len, int32_t *scratch, size_t scratch_len, int32_t *buffer, size_t buffer_len,
                   uint64_t *detail);

/*
 * Reads a log from a text by RFC 4180 without a header, and writes its words (questions 1, 13, 14, 8, 10 and 12, in
 * this order). Counts its rows, 8 words each. The rest of the buffer, or all of it if the call is refused, becomes
 * zero. A record is a row: predicate, truth and as many arguments as the predicate's arity, in decimal, quoted or not.
 * Lines end in CRLF; behind the last one it may be missing. No log has more than 4,096 rows, which are 32,768 words.
 */
uint32_t vh_read_log(const int32_t *table, size_t table_len, const uint8_t *text, size_t text_len, int32_t *buffer,
                     size_t buffer_len, uint64_t *detail);

/*
 * Writes a log as such a text, nothing quoted and CRLF behind every line (questions 1, 8 to 10 and 12). Counts its
 * bytes. The rest of the buffer, or all of it if the call is refused, becomes zero.
 */
uint32_t vh_write_log(const int32_t *table, size_t table_len, const int32_t *log, size_t log_len, uint8_t *buffer,
                      size_t buffer_len, uint64_t *detail);

/*
 * Reads a policy from a text in the TPTP typed form, one axiom, and writes its words (questions 1, 15, 2 to 7 and 12,
 * in this order; 4 is asked of parentheses with 15). Counts its words. The rest of the buffer, or all of it if the call
 * is refused, becomes zero. The axiom may have any name, and blanks and line ends (bytes 32, 10 and 13) may stand
 * around its tokens. The places of 2 to 7, but that of a parenthesis, are places in the words. No text has more words
 * than bytes.
 */
uint32_t vh_read_policy(const int32_t *table, size_t table_len, const uint8_t *text, size_t text_len, int32_t *buffer,
                        size_t buffer_len, uint64_t *detail);

/*
 * Writes a policy as such a text, named a and without blanks (questions 1 to 7 and 12). Counts its bytes, which are at
 * most 18 for each word and 14 more. The rest of the buffer, or all of it if the call is refused, becomes zero.
 */
uint32_t vh_write_policy(const int32_t *table, size_t table_len, const int32_t *policy, size_t policy_len,
                         uint8_t *buffer, size_t buffer_len, uint64_t *detail);

#ifdef __cplusplus
}
#endif

#endif
