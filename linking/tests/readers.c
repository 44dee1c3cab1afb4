/*
 * The readers of an answer's word in drive_object.h, on words with each value of the reserved bits.
 */
#include <assert.h>
#include <stdlib.h>

#include "../drive_object.h"

#ifdef NDEBUG
#error "the asserts are the test"
#endif

/* Bits 0 and 1 of byte 1 are read each for itself, whatever the other bytes are. */
static void read_step(uint64_t reserved) {
    for (unsigned bits = 0; bits < 1 << 2; bits++) {
        uint64_t zeros = (uint64_t)bits << 8 | reserved;
        uint64_t answer = UINT64_C(0x12345678abcd0000) | zeros;
        assert(drive_answer_refusal(zeros) == 0);
        assert(drive_answer_ended(zeros) == (bits & 1));
        assert(drive_answer_moved(zeros) == bits >> 1);
        assert(drive_answer_refusal(answer) == 0);
        assert(drive_answer_ended(answer) == (bits & 1));
        assert(drive_answer_moved(answer) == bits >> 1);
        assert(drive_answer_response(answer) == 0xabcd);
        assert(drive_answer_steps(answer) == 0x12345678);
    }
}

static void read_check(uint64_t reserved) {
    uint64_t checked = UINT64_C(0x12345678abcd0000) | reserved;
    assert(drive_answer_refusal(checked) == 0);
    assert(drive_answer_states(checked) == 0xabcd);
    assert(drive_answer_operations(checked) == 0x5678);
    assert(drive_answer_start_state(checked) == 0x1234);
}

/* As of a step, bits 0 and 1 of byte 1 are read each for itself. */
static void read_force(uint64_t reserved) {
    for (unsigned bits = 0; bits < 1 << 2; bits++) {
        uint64_t zeros = (uint64_t)bits << 8 | reserved;
        uint64_t force = UINT64_C(0x12345678abcd0000) | zeros;
        assert(drive_answer_refusal(zeros) == 0);
        assert(drive_answer_forced(zeros) == (bits & 1));
        assert(drive_answer_reached(zeros) == bits >> 1);
        assert(drive_answer_first_operation(zeros) == 0);
        assert(drive_answer_refusal(force) == 0);
        assert(drive_answer_forced(force) == (bits & 1));
        assert(drive_answer_reached(force) == bits >> 1);
        assert(drive_answer_first_operation(force) == 0xabcd);
    }
}

static void read_line(uint64_t reserved) {
    for (unsigned bit = 0; bit < 1 << 1; bit++) {
        uint64_t zeros = (uint64_t)bit << 16 | reserved;
        uint64_t line = UINT64_C(0x12345678abcc0000) | zeros;
        assert(drive_answer_refusal(zeros) == 0);
        assert(drive_answer_line(zeros) == bit);
        assert(drive_answer_refusal(line) == 0);
        assert(drive_answer_line(line) == bit);
    }
}

static void read_ceiling(uint64_t reserved) {
    uint64_t ceiling = UINT64_C(0x1234567800000000) | reserved;
    assert(drive_answer_refusal(ceiling) == 0);
    assert(drive_answer_ceiling(ceiling) == 0x12345678);
}

static void read_owner(uint64_t reserved) {
    uint64_t owner = UINT64_C(0x12345678abcd0000) | reserved;
    assert(drive_answer_refusal(owner) == 0);
    assert(drive_answer_ring(owner) == 0xabcd);
}

static void read_written(uint64_t reserved) {
    uint64_t written = UINT64_C(0x12345678abcd0000) | reserved;
    assert(drive_answer_refusal(written) == 0);
    assert(drive_answer_length(written) == 0x12345678);
}

static void read_refusals(uint64_t reserved) {
    for (unsigned number = 1; number <= UINT8_MAX; number++) {
        assert(drive_answer_refusal(number | reserved) == number);
        assert(!drive_answer_ended(number | reserved));
        assert(!drive_answer_moved(number | reserved));
        assert(!drive_answer_forced(number | reserved));
        assert(!drive_answer_reached(number | reserved));
        assert(!drive_answer_line(number | reserved));
    }
}

int main(void) {
    for (uint64_t bits = 0; bits < 1 << 6; bits++) {
        uint64_t reserved = bits << 10;
        read_step(reserved);
        read_check(reserved);
        read_force(reserved);
        read_line(reserved);
        read_ceiling(reserved);
        read_owner(reserved);
        read_written(reserved);
        read_refusals(reserved);
    }
    return EXIT_SUCCESS;
}
