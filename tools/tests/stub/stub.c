/*
 * An archive that answers otherwise than the library, whatever it is lent: the start state is 1, operation 0 is changing and
 * the others are reading, every ceiling is 77, and a step of task 0 is refused with 12. A step of another task ends its
 * operation: a changing one leaves replies that moved in the cells and answers that nothing moved, a reading one leaves
 * everything and answers that the state moved. A changing one of task 2 leaves a head with marks of tasks 0 and 7 and the
 * holder 14, a mark of task 1 in announcement 0, and in its own announcement the kind 3, which no run of the library has.
 * A list with a ring of 1,000 millimetres is refused with 14, chainage 5 with 15, the table of two rings with 16; chainage 6
 * belongs to ring 9 and any other to the last ring; a table is a text, and that of three rings has more bytes than any room.
 * The one file of a table's object is refused with 16 for a table of one byte, and for one of two bytes it has more bytes than
 * any room; for others it is two states that never change, where operation 0 responds with the number of the call if the table
 * has 28 bytes or more, and after a byte of text if the table has three.
 * A window call counts itself in byte 7 and leaves the command. Command 1 is refused with 10, and leaves busy and the number
 * 17; 2 begins operation 31, a reading one; 3 ends an operation with response 200, moved; any other is refused with 99. A
 * line is up while it is masked, and that of task 1 is refused with 17; a task without a window gets 18.
 * Whatever the targets are, with 0 moves none is needed but in state 1, and with 4 no target can be forced; else one is
 * forced by operation 1 with 3 moves, by 9 with 5, by 0 with 6, and by 2 with others. A question for 2 moves is refused with
 * 19, and so is one for state 9, or for state 1 with 8 moves; one for 99 moves is refused with 99.
 * What drive shows must follow it.
 */
#include <string.h>

#include "../../../linking/drive_object.h"

enum { READ_ONLY = 1, ANNOUNCE = 2 };

uint64_t drive_check(const uint8_t *file, size_t file_length) {
    (void)file, (void)file_length;
    return UINT64_C(2) << 16 | UINT64_C(3) << 32 | UINT64_C(1) << 48;
}

uint64_t drive_canonical(const uint8_t *file, size_t file_length, uint8_t *room, size_t room_length) {
    static uint8_t calls = 0;
    (void)file;
    calls++;
    if (file_length == 1) {
        return DRIVE_ROOM;
    }
    if (file_length == 2) {
        return (room_length + 1) << 32;
    }
    size_t text = file_length == 3 ? 1 : 0;
    memset(room, 0, text + 28);
    for (size_t entry = 3; entry < 6; entry++) {
        room[text + 2 * entry] = 1;
    }
    room[text + 7] = file_length >= 28 ? calls : 0;
    return (text + 28) << 32;
}

static uint64_t forced_by(uint64_t operation) { return 1 << 8 | operation << 16; }

uint64_t drive_force(const uint8_t *file, size_t file_length, size_t state, const uint8_t *targets, size_t target_count,
                     size_t moves) {
    (void)file, (void)file_length, (void)targets, (void)target_count;
    if (state == 9 || moves == 2 || (state == 1 && moves == 8)) {
        return DRIVE_QUESTION;
    }
    switch (moves) {
    case 0:
        return state == 1 ? forced_by(2) : 1 << 8 | 1 << 9;
    case 3:
        return forced_by(1);
    case 4:
        return 0;
    case 5:
        return forced_by(9);
    case 6:
        return forced_by(0);
    case 99:
        return 99;
    default:
        return forced_by(2);
    }
}

uint64_t drive_start(const uint8_t *file, size_t file_length, uint64_t *cells, size_t cell_count, drive_task *row,
                     size_t task_count) {
    (void)file, (void)file_length;
    for (size_t cell = 0; cell < cell_count; cell++) {
        cells[cell] = cell == 0 ? 0x700 : 0;
    }
    for (size_t task = 0; task < task_count; task++) {
        row[task].phase = 0;
    }
    return 0;
}

uint64_t drive_begin(const uint8_t *file, size_t file_length, drive_task *row, size_t task_count, size_t task,
                     size_t operation) {
    (void)file, (void)file_length, (void)task_count;
    row[task].phase = operation == 0 ? ANNOUNCE : READ_ONLY;
    return 0;
}

static uint64_t ended(uint64_t moved, uint64_t response, uint64_t steps) {
    return 1 << 8 | moved << 9 | response << 16 | steps << 32;
}

uint64_t drive_step(const uint8_t *file, size_t file_length, uint64_t *cells, size_t cell_count, drive_task *row,
                    size_t task_count, size_t task) {
    (void)file, (void)file_length, (void)cell_count, (void)task_count;
    if (task == 0) {
        return DRIVE_CELL;
    }
    bool reading = row[task].phase == READ_ONLY;
    row[task].phase = 0;
    if (reading) {
        return ended(1, 4, 55);
    }
    if (task == 2) {
        cells[0] = 0x0f000981;
        cells[1] = 2;
        cells[2] = 0;
        cells[3] = 0x300;
    } else {
        cells[0] = 0x11060300;
        cells[task + 1] = 0x01050200;
    }
    return ended(0, 3, 44);
}

uint64_t drive_window(const uint8_t *file, size_t file_length, uint64_t *cells, size_t cell_count, drive_task *row,
                      size_t task_count, uint8_t *windows, size_t window_length, size_t task) {
    (void)file, (void)file_length, (void)cell_count, (void)window_length;
    if (task >= task_count) {
        return DRIVE_WINDOW;
    }
    uint8_t *window = windows + DRIVE_WINDOW_BYTES * task;
    window[7]++;
    switch (window[1]) {
    case 1:
        window[2] = 1;
        window[4] = DRIVE_UNACKNOWLEDGED;
        return DRIVE_IDLE;
    case 2:
        row[task].operation = 31;
        row[task].phase = READ_ONLY;
        return 0;
    case 3:
        row[task].phase = 0;
        cells[0] = 0x900;
        window[2] = 0xfa;
        window[3] = 200;
        return 0;
    default:
        return 99;
    }
}

uint64_t drive_window_line(const uint8_t *windows, size_t window_length, size_t task_count, size_t task) {
    (void)window_length;
    if (task >= task_count) {
        return DRIVE_WINDOW;
    }
    uint64_t mask = windows[DRIVE_WINDOW_BYTES * task + 6] & 1;
    return task == 1 ? DRIVE_UNACKNOWLEDGED : mask << 16;
}

uint64_t drive_ceiling(size_t task_count) {
    (void)task_count;
    return UINT64_C(77) << 32;
}

static bool has_ring_of(uint32_t length, const uint32_t *rings, size_t word_count) {
    for (size_t word = 0; word < word_count; word += 2) {
        if (rings[word] == length) {
            return true;
        }
    }
    return false;
}

uint64_t desk_owner(const uint32_t *rings, size_t word_count, uint64_t chainage) {
    if (has_ring_of(1000, rings, word_count)) {
        return DRIVE_RINGS;
    }
    if (chainage == 5) {
        return DRIVE_CHAINAGE;
    }
    return (chainage == 6 ? UINT64_C(9) : word_count / 2) << 16;
}

uint64_t desk_table(const uint32_t *rings, size_t word_count, uint8_t *room, size_t room_length) {
    static const char text[] = "a table\n";
    if (has_ring_of(1000, rings, word_count)) {
        return DRIVE_RINGS;
    }
    if (word_count == 4) {
        return DRIVE_ROOM;
    }
    memcpy(room, text, sizeof text - 1);
    return (word_count == 6 ? room_length + 1 : sizeof text - 1) << 32;
}
