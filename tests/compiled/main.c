/* The compiled operations called from C, as include/voulkrod.h declares them.
 *
 *     compiled-c SAMPLES            P1 to P12 of the folder samples/, and calls at the edges
 *     compiled-c --stack SHEET...   how much stack the operations take on each of these files
 *
 * The status is 0 when all is as it must be, 1 when something is not, 2 when that cannot be told.
 */
#define _GNU_SOURCE
#include <inttypes.h>
#include <pthread.h>
#include <stdio.h>
#include <stdlib.h>
#include <string.h>
#include <sys/mman.h>

#include "voulkrod.h"

enum { LONGEST = 16384, ROOM = 65536 };

static int wrong;
static int held;

static void hold(const char *what, uint64_t seen, uint64_t due) {
    held++;
    if (seen != due) {
        wrong++;
        printf("%s: %" PRIu64 " in place of %" PRIu64 "\n", what, seen, due);
    }
}

static void give_up(const char *what, const char *why) {
    printf("%s: %s\n", what, why);
    exit(2);
}

/* ---- sheets and words */

struct sheet {
    uint8_t bytes[LONGEST + 1];
    size_t length;
};

static void read_sheet(const char *path, struct sheet *sheet) {
    FILE *file = fopen(path, "rb");
    if (!file) give_up(path, "it cannot be read");
    sheet->length = fread(sheet->bytes, 1, sizeof sheet->bytes, file);
    if (ferror(file)) give_up(path, "it cannot be read");
    fclose(file);
}

/* What a .words file says: the words, or the number of a refusal. */
struct answer {
    uint32_t words[ROOM];
    size_t count;
    unsigned refused;
};

static void read_answer(const char *path, struct answer *answer) {
    FILE *file = fopen(path, "r");
    if (!file) give_up(path, "it cannot be read");
    answer->count = 0;
    answer->refused = 0;
    if (fscanf(file, " refused %u", &answer->refused) != 1) {
        rewind(file);
        while (answer->count < ROOM && fscanf(file, "%" SCNx32, &answer->words[answer->count]) == 1) answer->count++;
    }
    if ((answer->refused != 0) == (answer->count != 0)) give_up(path, "it is no answer");
    fclose(file);
}

static uint32_t buffer[ROOM];

static uint32_t pattern(size_t index) { return 0x5eed5eedu ^ (uint32_t)index * 0x9e3779b9u; }

static void paint(void) {
    for (size_t i = 0; i < ROOM; i++) buffer[i] = pattern(i);
}

static size_t changed_from(size_t first) {
    size_t changed = 0;
    for (size_t i = first; i < ROOM; i++) changed += buffer[i] != pattern(i);
    return changed;
}

/* ---- P1 to P12 */

static const char *const samples[] = {
    "p01", "p02", "p03", "p04", "p05", "p06a", "p06b", "p06c", "p07a", "p07b", "p07c",
    "p08", "p09a", "p09b", "p10", "p11a", "p11b", "p12a", "p12b",
};

static void declare_refuses(const char *what, const struct sheet *sheet, size_t room, uint64_t due) {
    paint();
    hold(what, voulkrod_declare(sheet->bytes, sheet->length, buffer, room), due);
    hold("words changed by a refusal", changed_from(0), 0);
}

static void declare_writes(const char *what, const struct sheet *sheet, size_t room, const struct answer *due) {
    paint();
    uint64_t seen = voulkrod_declare(sheet->bytes, sheet->length, buffer, room);
    hold(what, seen, (uint64_t)due->words[3] << 32 | due->count);
    hold(what, memcmp(buffer, due->words, 4 * due->count) == 0, 1);
    hold("words changed past the count", changed_from(due->count), 0);
}

/* ---- lists */

/* P3's list: a header, and each instruction as its opcode, its result id, the count of its other words and those */
static const uint32_t p3_list[] = {
    0x07230203, 0x00010300, 28, 6, 0,
    71, 0, 3, 3, 6, 16,
    22, 2, 1, 32,
    23, 1, 2, 2, 3,
    21, 5, 2, 32, 0,
    43, 4, 2, 5, 4,
    28, 3, 2, 1, 4,
};

static void list_refuses(const char *what, const uint32_t *words, size_t count, size_t room, uint64_t due) {
    paint();
    hold(what, voulkrod_list(words, count, buffer, room), due);
    hold("words changed by a list that is refused", changed_from(0), 0);
}

/* A module in buffers that are longer than its list, as long, one word short and empty. */
static void list_of(const char *name, const struct answer *module) {
    paint();
    uint64_t seen = voulkrod_list(module->words, module->count, buffer, ROOM);
    size_t length = seen < 256 ? 0 : (size_t)(seen - 256);
    hold(name, length >= module->count, 1);
    hold("words changed past a list", changed_from(length), 0);
    if (!strcmp(name, "p03")) {
        hold("the length of P3's list", length, sizeof p3_list / sizeof *p3_list);
        hold("P3's list", memcmp(buffer, p3_list, sizeof p3_list) == 0, 1);
    }
    paint();
    hold(name, voulkrod_list(module->words, module->count, buffer, length), seen);
    hold("words changed past a list", changed_from(length), 0);
    list_refuses(name, module->words, module->count, length - 1, 16);
    list_refuses(name, module->words, module->count, 0, 16);
    list_refuses("a list of four words", module->words, 4, ROOM, 18);
    list_refuses("a list of no words", module->words, 0, ROOM, 18);
    if (module->count > 5) list_refuses("a list of a cut module", module->words, module->count - 1, ROOM, 19);
}

static void sample(const char *folder, const char *name) {
    static struct sheet sheet;
    static struct answer due;
    char path[4096];
    snprintf(path, sizeof path, "%s/%s.sheet", folder, name);
    read_sheet(path, &sheet);
    snprintf(path, sizeof path, "%s/%s.words", folder, name);
    read_answer(path, &due);
    hold(name, voulkrod_check(sheet.bytes, sheet.length), due.refused);
    if (due.refused) {
        declare_refuses(name, &sheet, LONGEST, due.refused);
        declare_refuses(name, &sheet, 0, due.refused);
        hold(name, voulkrod_wrapped(sheet.bytes, sheet.length, 0), due.refused);
        hold(name, voulkrod_wrapped(sheet.bytes, sheet.length, SIZE_MAX), due.refused);
        return;
    }
    declare_writes(name, &sheet, LONGEST, &due);
    declare_writes(name, &sheet, due.count, &due);
    declare_writes(name, &sheet, due.count + 1, &due);
    declare_refuses(name, &sheet, due.count - 1, 16);
    declare_refuses(name, &sheet, 0, 16);
    list_of(name, &due);
    /* P11 alone has a global: an empty struct, and a float, which is wrapped */
    unsigned first = !strcmp(name, "p11a") ? VOULKROD_NOT_WRAPPED : !strcmp(name, "p11b") ? VOULKROD_WRAPPED : 17;
    hold(name, voulkrod_wrapped(sheet.bytes, sheet.length, 0), first);
    hold(name, voulkrod_wrapped(sheet.bytes, sheet.length, 1), 17);
    hold(name, voulkrod_wrapped(sheet.bytes, sheet.length, SIZE_MAX), 17);
}

/* ---- the edges of a sheet's length */

static void edges(void) {
    static struct sheet sheet;
    sheet.length = 0;
    hold("Check of no bytes", voulkrod_check(sheet.bytes, 0), 1);
    declare_refuses("Declare of no bytes", &sheet, LONGEST, 1);
    declare_refuses("Declare of no bytes into no words", &sheet, 0, 1);
    hold("Wrapped of no bytes", voulkrod_wrapped(sheet.bytes, 0, SIZE_MAX), 1);

    /* a header, an Available of 4,092 numbers, and a float with a name of one byte: 16,384 bytes */
    static const uint8_t header[6] = {1, 0, 0, 0, 0, 0}, scalar[7] = {0, 5, 16, 1, 'a', 2, 4};
    uint16_t available = 1 + 4 * 4092;
    memcpy(sheet.bytes, header, 6);
    sheet.bytes[6] = available >> 8;
    sheet.bytes[7] = available & 255;
    sheet.bytes[8] = 1;
    memcpy(sheet.bytes + LONGEST - 7, scalar, 7);
    sheet.length = LONGEST;
    static struct answer due = {
        .words = {0x07230203, 0x00010300, 28, 2, 0, 3u << 16 | 22, 1, 32}, .count = 8, .refused = 0};
    hold("Check of 16,384 bytes", voulkrod_check(sheet.bytes, LONGEST), VOULKROD_FIT);
    declare_writes("Declare of 16,384 bytes", &sheet, ROOM, &due);
    hold("Wrapped of 16,384 bytes", voulkrod_wrapped(sheet.bytes, LONGEST, 0), 17);
    sheet.length = LONGEST + 1;
    hold("Check of 16,385 bytes", voulkrod_check(sheet.bytes, LONGEST + 1), 1);
    declare_refuses("Declare of 16,385 bytes", &sheet, ROOM, 1);
    hold("Wrapped of 16,385 bytes", voulkrod_wrapped(sheet.bytes, LONGEST + 1, SIZE_MAX), 1);
}

/* ---- stack: a call on a painted stack, of which the lowest byte that changed is looked for */

enum { STACK = 4 << 20, PAGE = 4096, PAINT = 0xa5 };

struct call {
    const struct sheet *sheet;
    int operation;
    char *from; /* where the caller's frame is */
};

enum { OPERATIONS = 4 };
static const char *const operations[OPERATIONS] = {"Check", "Declare", "Wrapped", "the list"};

/* the sheet's module, to be listed; no words where the sheet is refused */
static struct answer module;
static uint32_t list[2 * ROOM];

static void *on_thread(void *argument) {
    struct call *call = argument;
    char here;
    call->from = &here;
    const struct sheet *sheet = call->sheet;
    switch (call->operation) {
        case 0: voulkrod_check(sheet->bytes, sheet->length); break;
        case 1: voulkrod_declare(sheet->bytes, sheet->length, buffer, ROOM); break;
        case 2: voulkrod_wrapped(sheet->bytes, sheet->length, 0); break;
        default: voulkrod_list(module.words, module.count, list, 2 * ROOM);
    }
    return NULL;
}

static void run_on(char *stack, size_t bytes, struct call *call) {
    pthread_attr_t attributes;
    pthread_t thread;
    if (pthread_attr_init(&attributes) || pthread_attr_setstack(&attributes, stack, bytes) ||
        pthread_create(&thread, &attributes, on_thread, call) || pthread_join(thread, NULL))
        give_up("stack", "no thread on it");
    pthread_attr_destroy(&attributes);
}

static size_t stack_of(char *stack, struct call *call) {
    memset(stack, PAINT, STACK);
    run_on(stack, STACK, call);
    char *lowest = stack;
    while (*lowest == (char)PAINT) lowest++;
    /* and a stack of what the header says is enough, above a page that cannot be touched */
    run_on(stack + STACK - VOULKROD_STACK, VOULKROD_STACK, call);
    return (size_t)(call->from - lowest);
}

/* Sheets go by classes, each with its own stack (crates/declarations); the last class takes all others too. */
enum { CLASSES = 5 };
static const size_t class_ends[CLASSES] = {128, 512, 1280, 4096, 16384};

static void measure(int count, char **paths) {
    static struct sheet sheet;
    char *pages = mmap(NULL, PAGE + STACK, PROT_READ | PROT_WRITE, MAP_PRIVATE | MAP_ANONYMOUS, -1, 0);
    if (pages == MAP_FAILED || mprotect(pages, PAGE, PROT_NONE)) give_up("stack", "no memory for it");
    size_t most[CLASSES][OPERATIONS] = {{0}}, files[CLASSES] = {0};
    for (int i = 0; i < count; i++) {
        read_sheet(paths[i], &sheet);
        int class = 0;
        while (class + 1 < CLASSES && sheet.length > class_ends[class]) class++;
        files[class]++;
        uint64_t declared = voulkrod_declare(sheet.bytes, sheet.length, module.words, ROOM);
        module.count = declared >> 32 ? (uint32_t)declared : 0;
        for (int operation = 0; operation < OPERATIONS; operation++) {
            struct call call = {&sheet, operation, NULL};
            size_t bytes = stack_of(pages + PAGE, &call);
            if (bytes > most[class][operation]) most[class][operation] = bytes;
            held++;
            if (bytes > VOULKROD_STACK) {
                wrong++;
                printf("%s: %s takes %zu bytes of stack\n", paths[i], operations[operation], bytes);
            }
        }
    }
    printf("| sheets | of them | Check, bytes of stack | Declare | Wrapped | their modules' lists |\n|---|---|---|---|---|---|\n");
    for (int class = 0; class < CLASSES; class++) {
        printf("| up to %zu bytes | %zu | %zu | %zu | %zu | %zu |\n", class_ends[class], files[class], most[class][0],
               most[class][1], most[class][2], most[class][3]);
        if (!files[class]) give_up("stack", "there must be a sheet of each class");
    }
}

int main(int count, char **arguments) {
    if (count > 2 && !strcmp(arguments[1], "--stack")) {
        measure(count - 2, arguments + 2);
    } else if (count == 2 && arguments[1][0] != '-') {
        for (size_t i = 0; i < sizeof samples / sizeof *samples; i++) sample(arguments[1], samples[i]);
        edges();
    } else {
        give_up(arguments[0], "SAMPLES or --stack SHEET...");
    }
    printf("C: %d compared, %d wrong\n", held, wrong);
    return wrong != 0;
}
