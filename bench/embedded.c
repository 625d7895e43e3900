/* A hub by floor.h, for embedded.py: `refuse` has each allocation of a run refused in turn, by an allocator of its own in
   the place of the library's, and prints how often each result was answered; `hellos N D` sends N Hellos, D at a time, and
   prints how many bytes they were answered by. */
#include "floor.h"

#include <stdio.h>
#include <string.h>

static const char TEXT[] = "[[conference]]\nid = 1\n[[conference.user]]\nid = 10\nname = \"Ann\"\n[[conference.user]]\n"
                           "id = 11\n[[conference.floor]]\nid = 1\n[[conference]]\nid = 2\n";
static const uint8_t HELLO[] = {0x20, 11, 0, 0, 0, 0, 0, 1, 0, 1, 0, 10};

#ifdef REFUSING
static const uint8_t REQUEST[] = {0x20, 1, 0, 1, 0, 0, 0, 1, 0, 2, 0, 10, 4, 4, 0, 1};

struct tried {
    size_t is_ok;
    void *block;
};

static long left;
static size_t blocks;

struct tried rattle_alloc(size_t size, size_t alignment) {
    void *block = left-- == 0 ? NULL : malloc(size ? size : alignment);
    blocks += block != NULL;
    return (struct tried){block != NULL, block};
}

struct tried rattle_realloc(void *old, size_t kept, size_t size, size_t alignment) {
    void *block = left-- == 0 ? NULL : realloc(old, size ? size : alignment);
    (void)kept;
    return (struct tried){block != NULL, block};
}

void rattle_dealloc(void *block) {
    blocks--;
    free(block);
}

/* Each call once; puts what they answer, and says how many that is. */
static size_t run(floor_hub *hub, uint32_t *answers) {
    static uint8_t bytes[4096];
    static char lines[4096];
    uint64_t told[64];
    size_t count = 0;
    answers[count++] = floor_open(hub, TEXT, sizeof TEXT - 1).result;
    answers[count++] = floor_diagnose("id = ", 5, lines, sizeof lines).result;
    struct floor_attached ann = floor_attach(hub, 1, 10), bob = floor_attach(hub, 1, 11);
    answers[count++] = ann.result;
    answers[count++] = bob.result;
    answers[count++] = floor_piece(hub, ann.connection, REQUEST, sizeof REQUEST);
    answers[count++] = floor_serve(hub, ann.connection, 8).result;
    answers[count++] = floor_told(hub, told, 64).result;
    struct floor_taken taken = floor_take(hub, ann.connection, bytes, sizeof bytes);
    answers[count++] = taken.result;
    answers[count++] = floor_took(hub, ann.connection, taken.parcels);
    answers[count++] = floor_is_cut(hub, ann.connection);
    answers[count++] = floor_user(hub, 1, 12, true, "Cid", 3, "sip:c@d", 7);
    answers[count++] = floor_floor(hub, 1, 2, 1, true, 12);
    answers[count++] = floor_chair(hub, 1, 2, false, 0);
    answers[count++] = floor_revoke(hub, 1, 1);
    answers[count++] = floor_say(hub, 1, 10, REQUEST, sizeof REQUEST, bytes, sizeof bytes).result;
    answers[count++] = floor_status(hub, 1).result;
    answers[count++] = floor_leave(hub, bob.connection);
    answers[count++] = floor_close(hub, 1);
    answers[count++] = floor_journal(hub, 1, 0, lines, sizeof lines).result;
    answers[count++] = floor_leave(hub, ann.connection);
    answers[count++] = floor_forget(hub, 1);
    return count;
}

static int refuse(void) {
    unsigned seen[64] = {0};
    int is_over = 0;
    for (long number = 0; !is_over; number++) {
        floor_hub *hub = malloc(floor_hub_size());
        uint32_t answers[32];
        left = number;
        floor_hub_init(hub);
        size_t count = run(hub, answers);
        is_over = left >= 0;
        floor_hub_drop(hub);
        free(hub);
        if (blocks) {
            printf("allocation %ld refused: %zu blocks are left\n", number, blocks);
            return 1;
        }
        for (size_t place = 0; place < count; place++) {
            if (answers[place] > FLOOR_TEXT_DOUBLE_PORT) {
                printf("allocation %ld refused: call %zu answers %u\n", number, place, answers[place]);
                return 1;
            }
            seen[answers[place]]++;
        }
        if (is_over)
            printf("%ld allocations;", number);
    }
    for (unsigned result = 0; result < 64; result++)
        if (seen[result])
            printf(" %u of %u", seen[result], result);
    puts("");
    return 0;
}
#else
static int refuse(void) {
    return 2;
}
#endif

static int hellos(int count, int at_once) {
    static uint8_t bytes[65536], pieces[64 * sizeof HELLO];
    floor_hub *hub = floor_hub_new();
    size_t heard = 0;
    floor_open(hub, TEXT, sizeof TEXT - 1);
    uint64_t connection = floor_attach(hub, 1, 10).connection, told[64];
    for (int place = 0; place < 64; place++)
        memcpy(pieces + place * sizeof HELLO, HELLO, sizeof HELLO);
    for (int sent = 0; sent < count; sent += at_once) {
        floor_piece(hub, connection, pieces, sizeof HELLO * (size_t)at_once);
        floor_serve(hub, connection, (uint32_t)at_once);
        floor_told(hub, told, 64);
        struct floor_taken taken = floor_take(hub, connection, bytes, sizeof bytes);
        heard += taken.len;
        floor_took(hub, connection, taken.parcels);
    }
    floor_hub_free(hub);
    printf("%zu\n", heard);
    return 0;
}

int main(int argc, char **argv) {
    if (argc == 2 && strcmp(argv[1], "refuse") == 0)
        return refuse();
    if (argc == 4 && strcmp(argv[1], "hellos") == 0 && 0 < atoi(argv[3]) && atoi(argv[3]) <= 64)
        return hellos(atoi(argv[2]), atoi(argv[3]));
    return 2;
}
