/* Calls each function of the header on a small example. The exit code is the number of the first check that fails. */
#include "vitrinehawk.h"

#define LENGTH(array) (sizeof(array) / sizeof((array)[0]))
#define WORDS(array) array, LENGTH(array)
#define BYTES(string) (const uint8_t *)string, sizeof(string) - 1

/* send (open), consent (complete), believes (its argument is an input, open) */
static const int32_t table[] = {3, 0, 0, 2, 0, 1, 1, 1, 0};
static const int32_t policy[] = {8, 3, 0, 2, 0, 3, 1, 0, 1, 1, 1, 2, 2, 2, 1, 1, 1};
static const int32_t unbound[] = {8, 1, 0, 2, 2, 1, 1, 0, 1};
static const int32_t log_a[] = {0, 1, 7, 9, 100, 0, 0, 0, 1, 1, 9, 50, 0, 0, 0, 0};
static const int32_t residual[] = {6, 2, 2, 2, 1, 0, 9, 8, 3, 1, 7, 9, 100, 2,
                                   0, 3, 1, 0, 1, 1, 1, 2, 2, 2, 1, 1, 1};

/* The log as text, as it is written, and as another program may spell it. */
#define TEXT_A "0,1,7,9,100\r\n1,1,9,50\r\n"
#define QUOTED_A "\"0\",1,7,9,\"100\"\r\n1,1,\"9\",50"

/* The policy as text, as it is written, and as another program may spell it; and the unbound one. */
#define TEXT_P "tff(a,axiom,![X0:$int,X1:$int,X2:$int]:(p0(X0,X1,X2)=>p2(X1)))."
#define SPACED_P "tff(sent, axiom,\r\n  ! [X0: $int, X1: $int, X2: $int]: (p0(X0, X1, X2) => p2(X1))).\n"
#define TEXT_UNBOUND "tff(a,axiom,![X0:$int]:(p2(X0)=>$true))."

static int32_t scratch[35];
static int32_t buffer[30];
static uint8_t bytes[70];
static uint64_t detail;

static void make_dirty(void) {
    size_t i;
    for (i = 0; i < LENGTH(scratch); i++) scratch[i] = -3;
    for (i = 0; i < LENGTH(buffer); i++) buffer[i] = -5;
    for (i = 0; i < LENGTH(bytes); i++) bytes[i] = 250;
    detail = UINT64_MAX;
}

/* Whether the buffer has these words in front, then zeros up to some length, and is untouched behind it. */
static int has(const int32_t *words, size_t count, size_t length) {
    size_t i;
    for (i = 0; i < LENGTH(buffer); i++) {
        int32_t behind = i < length ? 0 : -5;
        if (buffer[i] != (i < count ? words[i] : behind)) return 0;
    }
    return 1;
}

/* The same of the buffer of bytes. */
static int has_bytes(const uint8_t *text, size_t count, size_t length) {
    size_t i;
    for (i = 0; i < LENGTH(bytes); i++) {
        uint8_t behind = i < length ? 0 : 250;
        if (bytes[i] != (i < count ? text[i] : behind)) return 0;
    }
    return 1;
}

/* Whether so many words of scratch are zero, and those behind them untouched. */
static int is_zero(size_t length) {
    size_t i;
    for (i = 0; i < LENGTH(scratch); i++) {
        if (scratch[i] != (i < length ? 0 : -3)) return 0;
    }
    return 1;
}

static uint32_t dual(size_t buffer_len) {
    make_dirty();
    return vh_dual(WORDS(table), WORDS(policy), buffer, buffer_len, &detail);
}

static uint32_t reduce(size_t scratch_len, size_t buffer_len) {
    make_dirty();
    return vh_reduce(WORDS(table), WORDS(policy), WORDS(log_a), scratch, scratch_len, buffer, buffer_len, &detail);
}

static uint32_t read_log(const uint8_t *text, size_t text_len, size_t buffer_len) {
    make_dirty();
    return vh_read_log(WORDS(table), text, text_len, buffer, buffer_len, &detail);
}

static uint32_t write_log(size_t log_len, size_t buffer_len) {
    make_dirty();
    return vh_write_log(WORDS(table), log_a, log_len, bytes, buffer_len, &detail);
}

static uint32_t read_policy(const uint8_t *text, size_t text_len, size_t buffer_len) {
    make_dirty();
    return vh_read_policy(WORDS(table), text, text_len, buffer, buffer_len, &detail);
}

static uint32_t write_policy(size_t policy_len, size_t buffer_len) {
    make_dirty();
    return vh_write_policy(WORDS(table), policy, policy_len, bytes, buffer_len, &detail);
}

int main(void) {
    int32_t opposite[LENGTH(policy)];
    size_t i;
    for (i = 0; i < LENGTH(policy); i++) opposite[i] = policy[i];
    opposite[0] = 9;
    opposite[12] = 3;

    if (vh_check_policy(WORDS(table), WORDS(policy), &detail) != 0 || detail != 3) return 1;
    if (vh_check_policy(WORDS(table), WORDS(unbound), &detail) != 7 || detail != 3) return 2;
    if (vh_check_log(WORDS(table), WORDS(log_a), &detail) != 0 || detail != 2) return 3;
    if (vh_check_log(WORDS(table), log_a, 15, &detail) != 8 || detail != 0) return 4;
    if (vh_check_log(WORDS(table), log_a, 0, &detail) != 0 || detail != 0) return 5;

    if (dual(20) != 0 || detail != LENGTH(policy)) return 6;
    if (!has(opposite, LENGTH(opposite), 20)) return 7;
    if (dual(LENGTH(policy) - 1) != 12 || detail != 0) return 8;
    if (!has(opposite, 0, LENGTH(policy) - 1)) return 9;

    if (reduce(34, 27) != 0 || detail != 27) return 10;
    if (!has(residual, 27, 27) || !is_zero(34)) return 11;
    if (reduce(35, 30) != 0 || detail != 27) return 12;
    if (!has(residual, 27, 30) || !is_zero(35)) return 13;
    if (reduce(33, 27) != 11 || detail != 0) return 14;
    if (!has(residual, 0, 27) || !is_zero(33)) return 15;
    if (reduce(34, 26) != 12 || detail != 0) return 16;
    if (!has(residual, 0, 26) || !is_zero(34)) return 17;
    if (reduce(0, 0) != 11 || detail != 0) return 18;
    if (!has(residual, 0, 0) || !is_zero(0)) return 19;

    if (read_log(BYTES(TEXT_A), 20) != 0 || detail != 2) return 20;
    if (!has(log_a, 16, 20)) return 21;
    if (read_log(BYTES(QUOTED_A), 16) != 0 || detail != 2) return 22;
    if (!has(log_a, 16, 16)) return 23;
    if (read_log(BYTES(""), 3) != 0 || detail != 0) return 24;
    if (!has(log_a, 0, 3)) return 25;
    if (read_log(BYTES(TEXT_A), 15) != 12 || detail != 0) return 26;
    if (!has(log_a, 0, 15)) return 27;
    if (read_log(BYTES(TEXT_A "\n"), 16) != 13 || detail != 23) return 28;
    if (!has(log_a, 0, 16)) return 29;
    if (read_log(BYTES(TEXT_A "\r\n"), 16) != 14 || detail != 2) return 30;
    if (!has(log_a, 0, 16)) return 31;

    if (write_log(16, 30) != 0 || detail != 23) return 32;
    if (!has_bytes(BYTES(TEXT_A), 30)) return 33;
    if (write_log(16, 23) != 0 || detail != 23) return 34;
    if (!has_bytes(BYTES(TEXT_A), 23)) return 35;
    if (write_log(0, 5) != 0 || detail != 0) return 36;
    if (!has_bytes(BYTES(""), 5)) return 37;
    if (write_log(16, 22) != 12 || detail != 0) return 38;
    if (!has_bytes(BYTES(""), 22)) return 39;
    if (write_log(15, 30) != 8 || detail != 0) return 40;
    if (!has_bytes(BYTES(""), 30)) return 41;

    if (read_policy(BYTES(TEXT_P), 20) != 0 || detail != 17) return 42;
    if (!has(policy, 17, 20)) return 43;
    if (read_policy(BYTES(SPACED_P), 17) != 0 || detail != 17) return 44;
    if (!has(policy, 17, 17)) return 45;
    if (read_policy(BYTES(TEXT_P), 16) != 12 || detail != 0) return 46;
    if (!has(policy, 0, 16)) return 47;
    if (read_policy(BYTES(TEXT_P "%"), 17) != 15 || detail != 63) return 48;
    if (!has(policy, 0, 17)) return 49;
    if (read_policy(BYTES(""), 3) != 15 || detail != 0) return 50;
    if (!has(policy, 0, 3)) return 51;
    if (read_policy(BYTES(TEXT_UNBOUND), 0) != 7 || detail != 3) return 52;
    if (!has(policy, 0, 0)) return 53;

    if (write_policy(17, 70) != 0 || detail != 63) return 54;
    if (!has_bytes(BYTES(TEXT_P), 70)) return 55;
    if (write_policy(17, 63) != 0 || detail != 63) return 56;
    if (!has_bytes(BYTES(TEXT_P), 63)) return 57;
    if (write_policy(17, 62) != 12 || detail != 0) return 58;
    if (!has_bytes(BYTES(""), 62)) return 59;
    if (write_policy(16, 70) != 3 || detail != 12) return 60;
    if (!has_bytes(BYTES(""), 70)) return 61;
    return 0;
}
