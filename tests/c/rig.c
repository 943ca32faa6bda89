/* A client of the bench rig. `rig FOLDER` runs the cases of the folder and those below; `rig` alone reads cases from standard input and writes
 * their codes, a line each. A case there is two sizes of 4 bytes, little-endian, then the table's bytes, then the log's.
 *
 * Each slice is lent twice: with a page behind its last byte that may not be read, and with one before its first. Nothing may be written. So one
 * byte read outside, or one byte written, ends the run. Beside that, slices are lent at every alignment, overlapping, and with sizes past 32 bits. */
#define _GNU_SOURCE
#include "brumerola.h"

#include <dirent.h>
#include <pthread.h>
#include <signal.h>
#include <stdio.h>
#include <stdlib.h>
#include <string.h>
#include <sys/mman.h>
#include <sys/wait.h>
#include <unistd.h>

#define ROOM ((size_t)1 << 18)
#define GUARD ((size_t)1 << 16)

static uint8_t *rooms[2];

static void die(const char *what) {
    fprintf(stderr, "rig: %s\n", what);
    exit(2);
}

static void touched(int signal) {
    static const char said[] = "rig: a byte outside the lent slices was read, or one of theirs was written\n";
    (void)signal;
    if (write(2, said, sizeof said - 1) < 0) _exit(4);
    _exit(3);
}

/* ROOM bytes with GUARD bytes on each side that may not be touched. */
static void make_rooms(void) {
    int i;
    for (i = 0; i < 2; i++) {
        uint8_t *all = mmap(NULL, ROOM + 2 * GUARD, PROT_NONE, MAP_PRIVATE | MAP_ANONYMOUS, -1, 0);
        if (all == MAP_FAILED) die("no room");
        rooms[i] = all + GUARD;
    }
    signal(SIGSEGV, touched);
    signal(SIGBUS, touched);
}

static void open_rooms(int how) {
    if (mprotect(rooms[0], ROOM, how) != 0 || mprotect(rooms[1], ROOM, how) != 0) die("no guard");
}

/* The code with both slices at the start, or both at the end, of their rooms. */
static uint32_t lent(const uint8_t *table, size_t tables, const uint8_t *log, size_t logs, int at_end) {
    uint8_t *a = rooms[0] + (at_end ? ROOM - tables : 0);
    uint8_t *b = rooms[1] + (at_end ? ROOM - logs : 0);
    if (tables > ROOM || logs > ROOM) die("a case is too large for the test");
    open_rooms(PROT_READ | PROT_WRITE);
    if (tables > 0) memcpy(a, table, tables);
    if (logs > 0) memcpy(b, log, logs);
    open_rooms(PROT_READ);
    return brumerola_choice(a, tables, b, logs);
}

static uint32_t code_of(const uint8_t *table, size_t tables, const uint8_t *log, size_t logs) {
    uint32_t first = lent(table, tables, log, logs, 0);
    if (lent(table, tables, log, logs, 1) != first) die("the same bytes gave two codes");
    return first;
}

/* ---- cases by hand */

static unsigned ran, wrong;

static void expect(const char *name, uint32_t code, uint32_t right) {
    ran++;
    if (code != right) {
        wrong++;
        printf("%s: %u, and not %u\n", name, code, right);
    }
}

struct bytes {
    uint8_t at[70000];
    size_t size;
};

static struct bytes table, logged;

static void put(struct bytes *to, uint64_t number, int count) {
    for (; count > 0; count--, number >>= 8) to->at[to->size++] = (uint8_t)number;
}

static void task(uint32_t c, uint32_t d, uint32_t t, uint8_t m, uint8_t k) {
    put(&table, 0x4B54, 2);
    put(&table, c, 4);
    put(&table, d, 4);
    put(&table, t, 4);
    put(&table, m, 1);
    put(&table, k, 1);
}

static void event(uint8_t kind, uint8_t of, uint64_t job, uint64_t time) {
    put(&logged, 0x5645, 2);
    put(&logged, kind, 1);
    put(&logged, of, 1);
    put(&logged, job, 8);
    put(&logged, time, 8);
}

static void tick(uint64_t time) { event(0, 0, 0, time); }
static void release(uint8_t of, uint64_t time) { event(1, of, 0, time); }
static void complete(uint8_t of, uint64_t job, uint64_t time) { event(2, of, job, time); }

/* The rules' two tasks, and no events. */
static void begin(void) {
    table.size = logged.size = 0;
    task(2, 4, 4, 1, 2);
    task(3, 7, 8, 1, 3);
}

static void is(const char *name, uint32_t right) {
    expect(name, code_of(table.at, table.size, logged.at, logged.size), right);
}

static void listing_events(void) {
    begin();
    is("no event", 16);
    release(0, 0), is("event 1", 0);
    release(1, 0), is("event 2", 0);
    complete(0, 1, 2), is("event 3", 1);
    release(0, 3), is("event 4", 32 + 11);
    release(0, 4), is("event 5", 1);
    complete(1, 1, 5), is("event 6", 0);
    complete(0, 1, 6), is("event 7", 32 + 12);
    tick(9), is("event 8", 16);
}

static void bad_tables(void) {
    int i;
    begin(), table.size = 0, is("no table", 32 + 1);
    begin(), table.size = 31, is("a record of 15 bytes", 32 + 1);
    begin(), table.size = 33, is("one byte more", 32 + 1);
    begin();
    for (i = 2; i < 16; i++) task(1, 1, 1, 0, 1);
    is("16 records", 16);
    task(1, 1, 1, 0, 1), is("17 records", 32 + 1);
    begin(), table.at[1] = 0x4C, is("a table mark", 32 + 2);
    begin(), table.at[16] = 0x4B, is("the second table mark", 32 + 2);
    begin(), table.size = 16, task(0, 7, 8, 1, 3), is("C of 0", 32 + 3);
    begin(), table.size = 16, task(8, 7, 8, 1, 3), is("C above D", 32 + 3);
    begin(), table.size = 16, task(3, 9, 8, 1, 3), is("D above T", 32 + 3);
    begin(), table.size = 16, task(3, 7, 1000001, 1, 3), is("T above the limit", 32 + 3);
    begin(), table.size = 16, task(3, 7, 1000000, 1, 3), is("T at the limit", 16);
    begin(), table.size = 16, task(3, 7, 8, 3, 3), is("m of K", 32 + 4);
    begin(), table.size = 16, task(3, 7, 8, 1, 65), is("K of 65", 32 + 4);
    begin(), table.size = 16, task(3, 7, 8, 0, 2), is("m of 0 and K of 2", 32 + 4);
    begin(), table.size = 16, task(3, 7, 8, 0, 1), is("a hard task", 16);
    begin(), table.size = 0, task(3, 7, 8, 3, 3), task(0, 0, 0, 0, 0), is("record by record", 32 + 4);
}

static void bad_records(void) {
    begin(), release(0, 0), logged.size = 19, is("19 bytes", 32 + 5);
    begin(), put(&logged, 0, 1), is("one byte", 32 + 5);
    begin(), put(&logged, 0x111111, 3), is("three bytes that are no mark", 32 + 5);
    begin(), release(0, 0), put(&logged, 0x45, 1), is("one byte more behind an event", 32 + 5);
    begin(), release(0, 0), release(1, 0), logged.at[20] = 0, is("an event mark", 32 + 6);
    begin(), release(0, 0), release(1, 0), logged.at[1] = 0x57, is("the first event mark", 32 + 6);
    begin(), release(0, 0), event(3, 0, 0, 1), is("kind 3", 32 + 7);
    begin(), event(3, 1, 1, 0), is("kind 3 with fields", 32 + 7);
    begin(), release(0, 0), event(0, 9, 0, 1), is("a tick with a task", 32 + 8);
    begin(), event(0, 0, 1, 1), is("a tick with a job", 32 + 8);
    begin(), event(1, 0, 1, 1), is("a release with a job", 32 + 8);
    begin(), event(1, 0, (uint64_t)1 << 63, 1), is("a release with a large job", 32 + 8);
    begin(), event(3, 0, 0, 1), release(0, 0), is("a record that does not read, then an event", 32 + 7);
    begin(), table.size = 0, event(3, 0, 0, 1), is("a bad table and a bad record", 32 + 1);
}

static void refused_events(void) {
    begin(), tick(1000000000000u), is("the last tick of time", 16);
    begin(), tick(1000000000001u), is("time above the limit", 32 + 9);
    begin(), tick(UINT64_MAX), is("time at its end", 32 + 9);
    begin(), tick(5), tick(4), is("time before the clock", 32 + 9);
    begin(), release(2, 0), is("no task 2", 32 + 10);
    begin(), complete(255, 1, 0), is("no task 255", 32 + 10);
    begin(), release(0, 5), release(0, 8), is("a release too soon", 32 + 11);
    begin(), release(0, 5), release(0, 9), is("a release at its spacing", 0);
    begin(), release(0, 0), complete(0, 2, 1), is("no job 2", 32 + 12);
    begin(), release(0, 0), complete(0, 0, 1), is("no job 0", 32 + 12);
    begin(), release(0, 0), complete(0, UINT64_MAX, 1), is("no such job", 32 + 12);
    begin(), release(0, 0), complete(0, 1, 5), is("past the deadline", 32 + 12);
    complete(0, 1, 4), is("the refusal undid step 1", 16);
    begin(), release(0, 0), complete(0, 1, 4), is("at the deadline", 16);
    begin(), release(0, 0), tick(4), is("open at its deadline", 0);
    begin(), release(0, 0), tick(5), is("closed past it", 16);
    begin(), release(0, 0), release(0, 1), tick(1), is("a refusal before the last event", 0);
}

static void long_logs(void) {
    begin();
    while (logged.size < 65520) tick(logged.size);
    is("65,520 bytes", 16);
    put(&logged, 0x5645, 16), is("65,536 bytes", 32 + 5);
    put(&logged, 0, 1), is("65,537 bytes", 64);
    table.size = 0, is("65,537 bytes and no table", 64);
    logged.size = 65536, is("65,536 bytes and no table", 32 + 1);
}

/* Bytes at an offset from the start of a room, which is one of a page. */
static const uint8_t *lent_at(int room, size_t offset, const uint8_t *from, size_t size) {
    open_rooms(PROT_READ | PROT_WRITE);
    memcpy(rooms[room] + offset, from, size);
    open_rooms(PROT_READ);
    return rooms[room] + offset;
}

/* Every alignment of the table with every alignment of the log. */
static void alignments(void) {
    size_t i, j;
    begin(), release(0, 0), release(1, 0), complete(0, 1, 2);
    for (i = 0; i < 16; i++)
        for (j = 0; j < 16; j++) {
            const uint8_t *a = lent_at(0, i, table.at, table.size), *b = lent_at(1, j, logged.at, logged.size);
            expect("table and log at any address", brumerola_choice(a, table.size, b, logged.size), 1);
        }
}

/* A table of one record and a log of two, from any two places of some bytes, as they stand there and apart. Both good once, by their number. */
static void any_two_places(const char *name, const struct bytes *all, size_t table_at, size_t log_at) {
    uint32_t apart[20][20];
    size_t i, x, y;
    for (x = 0; x < 20; x++)
        for (y = 0; y < 20; y++) apart[x][y] = code_of(all->at + x, 16, all->at + y, 40);
    expect(name, apart[table_at][log_at], 0);
    for (i = 0; i < 16; i++) {
        const uint8_t *from = lent_at(0, i, all->at, all->size);
        for (x = 0; x < 20; x++)
            for (y = 0; y < 20; y++) expect(name, brumerola_choice(from + x, 16, from + y, 40), apart[x][y]);
    }
}

/* A completion whose job and time hold a table's record, or a table's record whose C begins a completion; it is refused, and a release follows. */
static void overlaps(void) {
    begin(), table.size = 0, task(1, 2, 3, 1, 2);
    put(&logged, 0x00025645, 4);
    memcpy(logged.at + logged.size, table.at, 16), logged.size += 16;
    release(0, 0), put(&logged, 0, 20);
    any_two_places("a table within its log", &logged, 4, 0);
    begin(), table.size = 0, task(0x00025645, 0x00025646, 200000, 1, 2), put(&table, 0, 6);
    release(0, 1000);
    memcpy(table.at + table.size, logged.at, 20), table.size += 20;
    put(&table, 0, 18);
    any_two_places("a log that begins in its table", &table, 0, 2);
}

/* Sizes that are others in 8, 16 or 32 bits. Past 32 bits no byte is looked at but those of the front, which would be good alone. */
static void large_sizes(void) {
    static const size_t past[] = {0, 16, 20, 32, 40, 256, 65536};
    const size_t large = (size_t)1 << 32, front = (size_t)1 << 16;
    uint8_t *reserved[2];
    size_t i;
    begin(), table.size = 0;
    while (table.size < 4112) task(1, 1, 1, 0, 1);
    is("257 records", 32 + 1);
    while (table.size < 65552) task(1, 1, 1, 0, 1);
    is("65,552 bytes of table", 32 + 1);
    begin(), release(0, 0), release(1, 0);
    for (i = 0; i < 2; i++) {
        reserved[i] = mmap(NULL, large + 2 * front, PROT_NONE, MAP_PRIVATE | MAP_ANONYMOUS | MAP_NORESERVE, -1, 0);
        if (reserved[i] == MAP_FAILED || mprotect(reserved[i], front, PROT_READ | PROT_WRITE) != 0) die("no room for large sizes");
    }
    memcpy(reserved[0], table.at, table.size);
    memcpy(reserved[1], logged.at, logged.size);
    for (i = 0; i < sizeof past / sizeof *past; i++) {
        size_t size = large + past[i];
        expect("a table past 32 bits", brumerola_choice(reserved[0], size, logged.at, logged.size), 32 + 1);
        expect("a table past 32 bits, and no log", brumerola_choice(reserved[0], size, NULL, 0), 32 + 1);
        expect("a log past 32 bits", brumerola_choice(table.at, table.size, reserved[1], size), 64);
        expect("a log past 32 bits, and no table", brumerola_choice(NULL, 0, reserved[1], size), 64);
        expect("both past 32 bits", brumerola_choice(reserved[0], size, reserved[1], size), 64);
    }
    expect("a log too long, and neither may be read", brumerola_choice(reserved[0] + front, 32, reserved[1] + front, 65537), 64);
    for (i = 0; i < 2; i++) munmap(reserved[i], large + 2 * front);
}

/* Where a size is 0 the pointer may be anything. */
static void no_pointers(void) {
    begin();
    expect("NULL for the log", brumerola_choice(table.at, table.size, NULL, 0), 16);
    expect("NULL for the table", brumerola_choice(NULL, 0, table.at, 20), 32 + 1);
    expect("NULL for both", brumerola_choice(NULL, 0, NULL, 0), 32 + 1);
    expect("a page that may not be read", brumerola_choice(table.at, table.size, rooms[0] - 1, 0), 16);
    expect("one slice for both", brumerola_choice(table.at, table.size, table.at, table.size), 32 + 6);
}

static void *on_a_small_stack(void *unused) {
    (void)unused;
    begin(), release(1, 0), is("on a stack of 64 KiB", 1);
    return NULL;
}

static void small_stack(void) {
    pthread_t one;
    pthread_attr_t how;
    if (pthread_attr_init(&how) != 0 || pthread_attr_setstacksize(&how, 65536) != 0) die("no stack");
    if (pthread_create(&one, &how, on_a_small_stack, NULL) != 0 || pthread_join(one, NULL) != 0) die("no thread");
    pthread_attr_destroy(&how);
}

/* Whether a call that is told of one record more than was lent, behind the slice or before it, ends its process: the guards are there. */
static void guarded(int at_end) {
    int status;
    pid_t child;
    begin();
    lent(table.at, table.size, logged.at, logged.size, at_end);
    fflush(stdout);
    child = fork();
    if (child == 0) {
        const uint8_t *from = at_end ? rooms[0] + ROOM - table.size : rooms[0] - 16;
        if (freopen("/dev/null", "w", stderr) == NULL) _exit(0);
        brumerola_choice(from, table.size + 16, NULL, 0);
        _exit(0);
    }
    if (child < 0 || waitpid(child, &status, 0) != child) die("no process");
    expect(at_end ? "a record behind the slice" : "a record before the slice", status != 0, 1);
}

/* ---- cases of a folder: NNNN.table, NNNN.log, and expected.txt with a number and a code in each line */

static void load(struct bytes *to, const char *folder, const char *number, const char *kind) {
    char name[4096];
    FILE *file;
    snprintf(name, sizeof name, "%s/%s.%s", folder, number, kind);
    file = fopen(name, "rb");
    if (file == NULL) die(name);
    to->size = fread(to->at, 1, sizeof to->at, file);
    if (fclose(file) != 0 || to->size == sizeof to->at) die(name);
}

static unsigned files_in(const char *folder) {
    unsigned count = 0;
    struct dirent *one;
    DIR *all = opendir(folder);
    if (all == NULL) die(folder);
    while ((one = readdir(all)) != NULL) count += one->d_name[0] != '.';
    closedir(all);
    return count;
}

static void folder_cases(const char *folder) {
    char name[4096], number[32];
    unsigned right, before = ran;
    FILE *file;
    snprintf(name, sizeof name, "%s/expected.txt", folder);
    file = fopen(name, "r");
    if (file == NULL) die(name);
    while (fscanf(file, "%31s %u", number, &right) == 2) {
        load(&table, folder, number, "table");
        load(&logged, folder, number, "log");
        is(number, right);
    }
    if (!feof(file) || fclose(file) != 0) die(name);
    /* two files for each case, beside the list */
    if (ran == before || files_in(folder) != 2 * (ran - before) + 1) die("the folder has other files than those of its cases");
}

/* ---- cases from standard input */

static int whole(uint8_t *to, size_t size) { return fread(to, 1, size, stdin) == size; }

static size_t size_in(const uint8_t *four) {
    return (size_t)four[0] | (size_t)four[1] << 8 | (size_t)four[2] << 16 | (size_t)four[3] << 24;
}

static int framed_cases(void) {
    uint8_t head[8];
    size_t got;
    while ((got = fread(head, 1, 8, stdin)) == 8) {
        table.size = size_in(head);
        logged.size = size_in(head + 4);
        if (table.size > sizeof table.at || logged.size > sizeof logged.at) die("a case is too large for the test");
        if (!whole(table.at, table.size) || !whole(logged.at, logged.size)) die("a case is cut");
        printf("%u\n", code_of(table.at, table.size, logged.at, logged.size));
    }
    if (got != 0) die("a case is cut");
    return fflush(stdout) == 0 ? 0 : 2;
}

int main(int count, char **words) {
    make_rooms();
    if (count == 1) return framed_cases();
    listing_events();
    bad_tables();
    bad_records();
    refused_events();
    long_logs();
    alignments();
    overlaps();
    large_sizes();
    no_pointers();
    small_stack();
    guarded(0);
    guarded(1);
    folder_cases(words[1]);
    printf("%u cases, %u wrong\n", ran, wrong);
    return wrong == 0 ? 0 : 1;
}
