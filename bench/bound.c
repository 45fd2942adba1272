/* Times how fast the ids of a file can be numbered at all: a bound to hold the time of `mt_roster` against.
 *
 *     cc -O3 -march=native -o bound bench/bound.c && ./bound FILE
 *
 * It takes a file of programs and applicants without a fault whose ids have at most eight bytes, as bench/market.py
 * writes them, and judges nothing but what is asked: each entry of a list gets the number of its program or applicant,
 * and no number may stand twice in a list. An id is one word, the tables ask the processor for what they will need,
 * and bounds are not looked at. It prints the least processor time of twenty runs in milliseconds: `hash` for hashing
 * each field once, `number` for all the rest.
 */
#include <stdint.h>
#include <stdio.h>
#include <stdlib.h>
#include <string.h>
#include <time.h>

static const uint64_t SEED = 0x243f6a8885a308d3, MULTIPLIER = 0x9e3779b97f4a7c15;
enum { BATCH = 128, MOST_IDS = 100000, SLOTS = 1 << 18, RUNS = 20 };

/* The fields of a line side by side, and where each ends. */
typedef struct {
    uint8_t *bytes;
    size_t *ends, count;
} Row;

typedef struct {
    uint64_t word;
    uint8_t length;
} Id;

/* The slots hold numbers of ids, counted from 1. */
typedef struct {
    uint32_t *slots, count;
    Id *ids;
} Table;

static Row *rows;
static size_t row_count;

static void *room(size_t count, size_t size) {
    void *room = calloc(count, size);
    if (!room) exit(3);
    return room;
}

static Id field(const Row *row, size_t i) {
    size_t start = i ? row->ends[i - 1] : 0, length = row->ends[i] - start;
    const uint8_t *bytes = row->bytes + start;
    uint32_t head = 0, tail = 0;
    if (length >= 4) {
        memcpy(&head, bytes, 4);
        memcpy(&tail, bytes + length - 4, 4);
    } else if (length > 0) {
        head = bytes[0] | bytes[length / 2] << 8 | bytes[length - 1] << 16;
    }
    return (Id){head | (uint64_t)tail << 32, (uint8_t)length};
}

static uint64_t hash(Id id) {
    unsigned __int128 product = (unsigned __int128)(id.word ^ SEED) * (MULTIPLIER ^ 2 * id.length);
    return (uint64_t)product ^ (uint64_t)(product >> 64);
}

static int same(Id a, Id b) { return a.word == b.word && a.length == b.length; }

static Table new_table(void) { return (Table){room(SLOTS, sizeof(uint32_t)), 0, room(MOST_IDS, sizeof(Id))}; }

static void add(Table *table, Id id) {
    if (table->count == MOST_IDS) exit(4);
    size_t at = hash(id) % SLOTS;
    while (table->slots[at]) at = (at + 1) % SLOTS;
    table->ids[table->count++] = id;
    table->slots[at] = table->count;
}

/* The number of an id from 1, or 0, from a slot on. */
static uint32_t find(const Table *table, Id id, size_t at) {
    while (table->slots[at] && !same(table->ids[table->slots[at] - 1], id)) at = (at + 1) % SLOTS;
    return table->slots[at];
}

/* Numbers up to BATCH fields, and gives how many are unknown or have this stamp. */
static size_t number(const Table *table, const Row *row, size_t from, size_t count, uint32_t *stamps, uint32_t stamp,
                     uint32_t *numbers) {
    Id ids[BATCH];
    size_t at[BATCH], faults = 0;
    for (size_t i = 0; i < count; i++) {
        ids[i] = field(row, from + i);
        at[i] = hash(ids[i]) % SLOTS;
        __builtin_prefetch(&table->slots[at[i]]);
    }
    for (size_t i = 0; i < count; i++) {
        numbers[i] = table->slots[at[i]];
        __builtin_prefetch(&table->ids[numbers[i] - 1]);
        __builtin_prefetch(&stamps[numbers[i]]);
    }
    for (size_t i = 0; i < count; i++) {
        uint32_t number = numbers[i];
        if (!number || !same(table->ids[number - 1], ids[i])) number = find(table, ids[i], at[i]);
        faults += !number || stamps[number] == stamp;
        stamps[number] = stamp;
        numbers[i] = number;
    }
    return faults;
}

static int is_applicant(const Row *row) { return row->bytes[0] == 'a'; }

static void number_all(size_t entries) {
    Table applicants = new_table(), programs = new_table();
    uint32_t *seen = room(MOST_IDS + 1, sizeof(uint32_t)), *numbers = room(entries, sizeof(uint32_t));
    size_t written = 0, faults = 0;
    for (size_t r = 1; r < row_count; r++) add(is_applicant(&rows[r]) ? &applicants : &programs, field(&rows[r], 1));
    for (size_t r = 1; r < row_count; r++) {
        const Row *row = &rows[r];
        const Table *table = is_applicant(row) ? &programs : &applicants;
        for (size_t i = is_applicant(row) ? 2 : 3; i < row->count; i += BATCH) {
            size_t left = row->count - i, count = left < BATCH ? left : BATCH;
            faults += number(table, row, i, count, seen, (uint32_t)r, numbers + written);
            written += count;
        }
    }
    if (faults) fprintf(stderr, "%zu entries are unknown or stand twice\n", faults);
    free(applicants.slots), free(applicants.ids), free(programs.slots), free(programs.ids), free(seen), free(numbers);
}

static uint64_t hash_all(void) {
    uint64_t mixed = 0;
    for (size_t r = 0; r < row_count; r++)
        for (size_t i = 0; i < rows[r].count; i++) mixed ^= hash(field(&rows[r], i));
    return mixed;
}

/* Reads the rows, and gives how many fields they have. */
static size_t read_rows(FILE *file) {
    char *line = NULL;
    size_t room_for = 0, fields = 0;
    ssize_t length;
    while ((length = getline(&line, &room_for, file)) > 0) {
        Row row = {room((size_t)length, 1), room((size_t)length, sizeof(size_t)), 0};
        size_t end = 0;
        for (ssize_t i = 0; i < length; i++) {
            if (line[i] == ',' || line[i] == '\n') row.ends[row.count++] = end;
            else row.bytes[end++] = (uint8_t)line[i];
        }
        row.ends = realloc(row.ends, row.count * sizeof(size_t));
        row.bytes = realloc(row.bytes, end + 1);
        if (row_count % 4096 == 0) rows = realloc(rows, (row_count + 4096) * sizeof(Row));
        rows[row_count++] = row;
        fields += row.count;
    }
    free(line);
    return fields;
}

static double now(void) {
    struct timespec time;
    clock_gettime(CLOCK_PROCESS_CPUTIME_ID, &time);
    return time.tv_sec * 1e3 + time.tv_nsec / 1e6;
}

int main(int count, char **words) {
    FILE *file = count == 2 ? fopen(words[1], "r") : NULL;
    if (!file) {
        fputs("usage: bound FILE\n", stderr);
        return 2;
    }
    size_t fields = read_rows(file);
    double hashing = 1e9, numbering = 1e9;
    uint64_t mixed = 0;
    for (int run = 0; run < RUNS; run++) {
        double start = now();
        mixed ^= hash_all();
        double between = now();
        number_all(fields);
        double end = now();
        if (between - start < hashing) hashing = between - start;
        if (end - between < numbering) numbering = end - between;
    }
    printf("hash %.0f\nnumber %.0f\nfields %zu\nmixed %llx\n", hashing, numbering, fields, (unsigned long long)mixed);
    return 0;
}
