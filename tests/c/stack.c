/* How many bytes of stack each call takes: it runs in a thread of its own whose stack was filled with a pattern, and counts the bytes from the
 * lowest one that isn't of the pattern any more. The status is 1 where a call takes more than the most, or isn't answered as it has to be.
 *
 * usage: stack MOST CONFIG ..     each configuration is opened as a publisher and as a subscriber; where its name begins with "nested" it is judged only */
#define _GNU_SOURCE
#include "uapubsub.h"
#include <pthread.h>
#include <stdio.h>
#include <stdlib.h>
#include <string.h>
#include <sys/mman.h>

enum { ROOM = 8 << 20, PATTERN = 0xa5, ANY = 1000 };

static char text[1 << 18];
static size_t length;
static struct uap_handle publisher = UAP_CLOSED_HANDLE, subscriber = UAP_CLOSED_HANDLE;
static uint8_t datagram[65536], copy[65536];
static size_t size;
static uint32_t status;
static struct uap_key_set sets[16];
static uint8_t state[UAP_STATE_BYTES];
static size_t state_size;

static void nothing(void) { status = UAP_OK; }
static void check(void) { char line[256]; size_t written; status = uap_config_check(text, length, line, sizeof line, &written); }
static void open_publisher(void) { status = uap_publisher_open(&publisher, text, length); }
static void open_subscriber(void) { status = uap_subscriber_open(&subscriber, text, length); }
static void set_u32(void) { status = uap_set_u32(&publisher, 0, 0, 7); }
static void set_text(void) { status = uap_set_text(&publisher, 0, 1, "20.5 C"); }
static void own_text(void) { char it[256]; size_t count; status = uap_own_text(&publisher, 0, 1, it, sizeof it, &count); }
static void next(void) { status = uap_publisher_next(&publisher, 100, datagram, sizeof datagram, &size); }
static void due(void) { uint64_t moment; status = uap_publisher_due(&publisher, 100, &moment); }
static void take(void) { struct uap_taken taken; memcpy(copy, datagram, size); status = uap_subscriber_datagram(&subscriber, 0, 100, copy, size, &taken); }
static void get_u32(void) { uint32_t value; status = uap_get_u32(&subscriber, 0, 0, 0, &value); }
static void get_text(void) { char it[256]; size_t count; status = uap_get_text(&subscriber, 0, 0, 1, it, sizeof it, &count); }
static void why(void) { uint32_t it; status = uap_reader_why(&subscriber, 0, 0, &it); }
static void expire(void) { status = uap_subscriber_expire(&subscriber, 200); }
static void standing(void) { uint32_t token, used; status = uap_publisher_standing(&publisher, 0, &token, &used); }
static void resume(void) { status = uap_publisher_resume(&publisher, 0, 0, 500); }
static void resume_with(void) { status = uap_publisher_resume_with(&publisher, 0, 0, 7, 600, sets, 16); }
static void renew(void) { status = uap_publisher_renew(&publisher, 0, sets, 16); }
static void renew_subscriber(void) { status = uap_subscriber_renew(&subscriber, 0, sets, 16); }
static void name(void) { char it[256]; status = uap_name(&publisher, UAP_GROUPS, 0, 0, it, sizeof it); }
static void reader_off(void) { status = uap_reader_disable(&subscriber, 0, 0); }
static void reader_on(void) { status = uap_reader_enable(&subscriber, 0, 0); }
static void writer_off(void) { status = uap_writer_disable(&publisher, 0, 0); }
static void writer_on(void) { status = uap_writer_enable(&publisher, 0, 0); }
static void begin_at(void) { status = uap_writer_begin_at(&publisher, 0, 0, 700); }
static void save(void) { status = uap_publisher_save(&publisher, 9, state, sizeof state, &state_size); }
static void stored(void) { status = uap_publisher_stored(&publisher); }
static void must_store(void) { status = uap_publisher_must_store(&publisher); }
static void restore(void) { status = uap_publisher_restore(&publisher, 0, state, state_size); }
static void state_token(void) { uint32_t token; status = uap_state_token(state, state_size, 0, &token); }
static void take_all(void) { struct uap_takings takings; status = uap_subscriber_take(&subscriber, 100, datagram, size, &takings); }
static void place(void) { struct uap_place it; status = uap_config_place(text, length, &it); }
static void close_publisher(void) { status = uap_close(&publisher); }
static void close_subscriber(void) { status = uap_close(&subscriber); }

struct call {
    const char *name;
    void (*make)(void);
    uint32_t answer;
};

static const struct call judging[] = {{"config_check", check, UAP_REFUSED}, {"config_place", place, UAP_OK}, {NULL, NULL, 0}};

/* (a datagram of the same device is of another publisher: it is refused, behind its header) */
static const struct call all[] = {
    {"config_check", check, UAP_OK}, {"config_place", place, UAP_NONE}, {"publisher_open", open_publisher, UAP_OK}, {"subscriber_open", open_subscriber, UAP_OK}, {"name", name, UAP_OK},
    {"writer_begin_at", begin_at, UAP_OK}, {"publisher_save", save, UAP_OK}, {"publisher_restore", restore, UAP_OK}, {"publisher_must_store", must_store, UAP_OK}, {"publisher_save, again", save, UAP_OK},
    {"publisher_stored", stored, UAP_OK}, {"state_token", state_token, UAP_OK},
    {"set_u32", set_u32, ANY}, {"set_text", set_text, ANY}, {"own_text", own_text, ANY}, {"publisher_due", due, UAP_OK}, {"publisher_next", next, UAP_OK},
    {"subscriber_datagram", take, ANY}, {"subscriber_take", take_all, UAP_OK}, {"reader_why", why, ANY}, {"get_u32", get_u32, ANY}, {"get_text", get_text, ANY}, {"subscriber_expire", expire, UAP_OK},
    {"publisher_standing", standing, UAP_OK}, {"publisher_resume", resume, ANY}, {"publisher_resume_with", resume_with, ANY}, {"publisher_renew", renew, UAP_OK},
    {"subscriber_renew", renew_subscriber, UAP_OK}, {"subscriber_datagram, renewed", take, ANY}, {"publisher_next, renewed", next, ANY}, {"reader_disable", reader_off, UAP_OK},
    {"reader_enable", reader_on, UAP_OK}, {"writer_disable", writer_off, UAP_OK}, {"writer_enable", writer_on, UAP_OK}, {"close, publisher", close_publisher, UAP_OK},
    {"close, subscriber", close_subscriber, UAP_OK}, {NULL, NULL, 0}};

static void *thread(void *call) {
    const struct call *it = call;
    it->make();
    return NULL;
}

static void cannot(const char *what) {
    fprintf(stderr, "stack: %s\n", what);
    exit(2);
}

/* The bytes of the thread's stack that were written. */
static size_t written_by(struct call call) {
    uint8_t *stack = mmap(NULL, ROOM, PROT_READ | PROT_WRITE, MAP_PRIVATE | MAP_ANONYMOUS | MAP_STACK, -1, 0);
    pthread_attr_t how;
    pthread_t it;
    size_t at = 0;
    if (stack == MAP_FAILED) cannot("no room for a stack");
    memset(stack, PATTERN, ROOM);
    if (pthread_attr_init(&how) || pthread_attr_setstack(&how, stack, ROOM) || pthread_create(&it, &how, thread, &call) || pthread_join(it, NULL)) cannot("no thread");
    while (at < ROOM && stack[at] == PATTERN) at++;
    munmap(stack, ROOM);
    return ROOM - at;
}

int main(int count, char **words) {
    size_t most = count > 2 ? strtoul(words[1], NULL, 10) : 0, bare = written_by((struct call){"nothing", nothing, UAP_OK});
    int end = 0;
    for (size_t i = 0; i < 16; i++) {
        sets[i].token = 7 + (uint32_t)i;
        sets[i].from_ms = i * 1000;
    }
    for (int i = 2; i < count; i++) {
        FILE *file = fopen(words[i], "rb");
        if (file == NULL) cannot(words[i]);
        length = fread(text, 1, sizeof text, file);
        fclose(file);
        for (const struct call *call = strncmp(words[i], "nested", 6) == 0 ? judging : all; call->name != NULL; call++) {
            size_t whole = written_by(*call), taken = whole > bare ? whole - bare : 0;
            printf("%-20s %-30s %3u %8zu\n", words[i], call->name, (unsigned)status, taken);
            if (taken > most || (call->answer != ANY && status != call->answer)) end = 1;
        }
    }
    return end;
}
