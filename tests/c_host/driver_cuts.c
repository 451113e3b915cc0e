/* Drivers as processes of their own: each maps a file into its memory, makes the first stores of a list there and is killed before
 * the next. What the file then holds is judged, and another driver goes on from it. */
#define _DEFAULT_SOURCE
#include "driver.h"
#include "register_service.h"

#include <arpa/inet.h>
#include <fcntl.h>
#include <signal.h>
#include <string.h>
#include <sys/mman.h>
#include <sys/stat.h>
#include <sys/wait.h>
#include <unistd.h>

/* As many stores as the list has, and then an end without a signal. */
#define ALL UINT32_MAX

/* The file that holds the block, in place of a controller's memory. */
static const char *path;

/* The block before an entry, the one that the entry gives uncut, and the one that was found in the file. */
static struct block before, uncut, found;

/* Ends a driver that met what it cannot go on from; no check of the parent takes this for a cut. */
static void demand(bool holds) {
    if (!holds) _exit(1);
}

/* Makes a store in the mapped block: one of 32 bits, highest byte first. */
static void store(uint8_t *mapped, size_t size, uint32_t at, uint32_t word) {
    demand(at % 4 == 0 && at <= size - 4);
    *(volatile uint32_t *)(mapped + at) = htonl(word);
}

/* A driver: it asks for the list of an entry into the mapped block and makes its first stores, one by one, until it is killed. */
static _Noreturn void drive(struct entry entry, uint32_t stores) {
    static uint8_t records[REGISTER_LIST_SIZE];
    struct stat about;
    uint32_t count;
    int file = open(path, O_RDWR);
    demand(file >= 0 && fstat(file, &about) == 0);
    size_t size = (size_t)about.st_size;
    uint8_t *mapped = mmap(NULL, size, PROT_READ | PROT_WRITE, MAP_SHARED, file, 0);
    demand(mapped != MAP_FAILED);
    demand(register_write_list(mapped, size, (const uint8_t *)entry.key, entry.key_size, entry.value, records, sizeof records,
                               &count) == REGISTER_DONE);
    for (uint32_t i = 0; i < count && i < stores; i++) {
        store(mapped, size, word_of(records + i * RECORD), word_of(records + i * RECORD + 4));
    }
    if (stores != ALL) kill(getpid(), SIGKILL);
    demand(munmap(mapped, size) == 0 && close(file) == 0);
    _exit(0);
}

/* Lets a driver make so many stores: it must die of the signal, or end well where it makes all. */
static void run_driver(struct entry entry, uint32_t stores) {
    int status;
    pid_t driver = fork();
    CHECK(driver >= 0);
    if (driver == 0) drive(entry, stores);
    CHECK(waitpid(driver, &status, 0) == driver);
    if (stores == ALL) {
        CHECK(WIFEXITED(status) && WEXITSTATUS(status) == 0);
    } else {
        CHECK(WIFSIGNALED(status) && WTERMSIG(status) == SIGKILL);
    }
}

/* Writes a block to the file, in place of all that it held. */
static void write_file(struct block *block) {
    int file = open(path, O_WRONLY | O_CREAT | O_TRUNC, 0600);
    CHECK(file >= 0 && write(file, bytes(block), block->size) == (ssize_t)block->size && close(file) == 0);
}

/* Reads the file anew; it has the size that it was written with. */
static void read_file(void) {
    int file = open(path, O_RDONLY);
    struct stat about;
    CHECK(file >= 0 && fstat(file, &about) == 0 && about.st_size == (off_t)before.size);
    found.size = before.size;
    CHECK(read(file, bytes(&found), found.size) == (ssize_t)found.size && close(file) == 0);
}

/* Whether what was found is a block, byte for byte. */
static bool is_found(struct block *block) { return memcmp(bytes(&found), bytes(block), found.size) == 0; }

/* What a block shows: its records in order, with room for all. */
struct shown {
    uint32_t records, used, more;
    uint8_t bytes[4096];
};

static struct shown show(struct block *block) {
    struct shown shown;
    memset(&shown, 0, sizeof shown);
    uint8_t answer = register_page(bytes(block), block->size, NULL, 0, shown.bytes, sizeof shown.bytes, &shown.records,
                                  &shown.used, &shown.more);
    CHECK(answer == REGISTER_DONE && shown.more == 0);
    return shown;
}

/* What a slot shows, or nothing where it is not held: the state after going back to it, on a copy. */
static struct shown show_slot(const struct block *block, uint32_t slot) {
    static struct block copy;
    copy = *block;
    bool held = bytes(&copy)[trailer(&copy) + 0x10] >> (slot - 1) & 1;
    CHECK(register_restore(bytes(&copy), copy.size, slot) == (held ? REGISTER_DONE : REGISTER_EMPTY_SLOT));
    return held ? show(&copy) : (struct shown){0};
}

static bool same(struct shown one, struct shown other) { return memcmp(&one, &other, sizeof one) == 0; }

/* A look-up in what was found has the answer and the value that it had before. */
static void check_look_up(const uint8_t *key, size_t key_size) {
    uint32_t old, new;
    uint8_t answer = register_get(bytes(&before), before.size, key, key_size, &old);
    CHECK(register_get(bytes(&found), found.size, key, key_size, &new) == answer && new == old);
}

/* What was found is sound and shows the table of before, label by label, and each slot the one that it had. */
static void check_old(struct entry entry) {
    CHECK(register_validate(bytes(&found), found.size) == REGISTER_DONE);
    struct shown shown = show(&before);
    CHECK(same(show(&found), shown));
    for (size_t at = 0; at < shown.used; at += 5u + shown.bytes[at]) check_look_up(shown.bytes + at + 1, shown.bytes[at]);
    check_look_up((const uint8_t *)entry.key, entry.key_size);
    for (uint32_t slot = 1; slot <= 3; slot++) CHECK(same(show_slot(&found, slot), show_slot(&before, slot)));
}

/* A driver makes so many stores and is killed: the file holds just these, made on what it held, and shows what it showed. */
static void cut(struct entry entry, uint32_t stores) {
    struct block expected = found;
    for (uint32_t i = 0; i < stores; i++) put_word(&expected, position(i), data(i));
    run_driver(entry, stores);
    read_file();
    CHECK(is_found(&expected));
    check_old(entry);
}

/* Another driver goes on from the file: it asks for the list anew, makes all of it, and the file is as if nothing had been cut. */
static void go_on(struct entry entry) {
    run_driver(entry, ALL);
    read_file();
    CHECK(is_found(&uncut));
}

/* Starts from the block before an entry: its list, the block that the entry gives, and the file. */
static void start(struct entry entry) {
    uncut = before;
    enter(&uncut, entry.key, entry.key_size, entry.value);
    ask_whole(&before, entry);
    write_file(&before);
    read_file();
}

/* Cuts an entry at every place once, and makes it whole after each. */
static void cut_everywhere(struct entry entry) {
    start(entry);
    uint32_t last = list.records - 1;
    for (uint32_t stores = 0; stores <= last; stores++) {
        start(entry);
        cut(entry, stores);
        go_on(entry);
    }
    start(entry);
    run_driver(entry, last + 1);
    read_file();
    CHECK(is_found(&uncut));
}

/* Cuts an entry twice in a row, at every two places of a short list, and of a long one at some eight by eight. */
static void cut_twice(struct entry entry) {
    start(entry);
    uint32_t last = list.records - 1, step = list.records < 10 ? 1 : list.records / 8;
    for (uint32_t first = 0; first <= last; first += step) {
        for (uint32_t second = 0; second <= last; second += step) {
            start(entry);
            cut(entry, first);
            cut(entry, second);
            go_on(entry);
        }
    }
}

/* A label that is entered with its value, and a slot that is then set; either may be missing. */
struct step {
    const char *key;
    uint32_t value, slot;
};

/* A block, made by steps from a fresh one whose free cells hold old bytes, and the label and value of an entry into it. */
struct scene {
    size_t cells;
    struct step steps[10];
    const char *key;
    uint32_t value;
};

#define LONG_LABEL "0123456789ABCDEFGHIJKLMNOPQRSTUVWXYZabcdefghijkl"

static const struct scene scenes[] = {
    /* a chain, in one cell and in two */
    {4, {{.slot = 1}}, "A", 1},
    {4, {{.slot = 3}}, LONG_LABEL, 0x7FFFFFFF},
    /* a sparse node of two children and of three */
    {8, {{"CHA", 0, 1}}, "A", 1},
    {8, {{"CHA", 0, 2}, {"A", 1, 1}}, "5", 2},
    /* a prefix over an old chain, and one that is set anew */
    {8, {{"CHA", 0, 1}}, "C", 5},
    {8, {{"CHA", 0, 1}, {"C", 5, 2}}, "C", 9},
    /* a value put back over a new chain, where edition 2 embeds it, and a path through that */
    {8, {{"C", 5, 2}}, "CHA", 0},
    {16, {{"C", 5, 1}, {"CHA", 0, 3}}, "CHB", 1},
    /* another value for a label */
    {16, {{"CHA", 0, 1}, {"A", 1, 2}, {"5", 2, 3}}, "CHA", 7},
    /* the seventh child, and an entry below one of seven */
    {16, {{"3", 0, 0}, {"5", 1, 0}, {"A", 2, 0}, {"B", 3, 1}, {"C", 4, 0}, {"P", 5, 2}}, "Q", 6},
    {32, {{"3", 0, 0}, {"5", 1, 0}, {"A", 2, 0}, {"B", 3, 1}, {"C", 4, 0}, {"P", 5, 0}, {"Q", 6, 2}}, "QXYZ", 7},
    /* the seventh child below a value, which edition 2 embeds in the head */
    {32, {{"C", 0, 0}, {"C3", 0, 0}, {"C5", 1, 0}, {"CA", 2, 0}, {"CB", 3, 1}, {"CC", 4, 0}, {"CP", 5, 2}}, "CQ", 6},
};

/* Makes the block of a scene. */
static void make_scene(const struct scene *scene, uint32_t edition) {
    fresh_of(&before, scene->cells, edition);
    memset(bytes(&before) + CELL, 0xC3, trailer(&before) - CELL);
    for (size_t i = 0; i < sizeof scene->steps / sizeof *scene->steps; i++) {
        struct step step = scene->steps[i];
        if (step.key) enter(&before, step.key, strlen(step.key), step.value);
        if (step.slot) CHECK(register_snapshot(bytes(&before), before.size, step.slot) == REGISTER_DONE);
    }
}

void test_cuts(const char *file) {
    path = file;
    for (uint32_t edition = 1; edition <= 2; edition++) {
        for (size_t i = 0; i < sizeof scenes / sizeof *scenes; i++) {
            struct entry entry = {scenes[i].key, strlen(scenes[i].key), scenes[i].value};
            make_scene(scenes + i, edition);
            cut_everywhere(entry);
            cut_twice(entry);
        }
    }
}
