// Memory: opening and judging take it, and answer UAP_MEMORY wherever malloc gives none; no other call takes any, and closing gives all of it
// back. The linker has each call of malloc, realloc, aligned_alloc, posix_memalign and free go through here.
#include "calls.h"

static const char small[] =
    "[publisher]\nid = \"u8:9\"\n"
    "[[dataset]]\nname = \"set\"\n"
    "[[dataset.field]]\nname = \"level\"\nkind = \"UInt32\"\n"
    "[[keygroup]]\nname = \"keys\"\npolicy = \"aes128\"\nrandom = \"00000000\"\n" SHORT_SET("1", "0", "a")
    "[[group]]\nname = \"group\"\nid = 1\ninterval = 100\nsecurity = \"encrypt\"\nkeygroup = \"keys\"\n"
    "[[group.writer]]\nname = \"writer\"\nid = 1\ndataset = \"set\"\n"
    "[[readgroup]]\nname = \"peer\"\npublisher = \"u8:9\"\ngroup = 1\nsecurity = \"encrypt\"\nkeygroup = \"keys\"\n"
    "[[readgroup.reader]]\nname = \"reader\"\nwriter = 1\ndataset = \"set\"\ntimeout = 100\n";

// How often memory was asked for, which time it is refused, counted from 0, and how many pieces are held.
static size_t asked, refused = SIZE_MAX, held;

void *__real_malloc(size_t size);
void *__real_realloc(void *old, size_t size);
void *__real_aligned_alloc(size_t alignment, size_t size);
int __real_posix_memalign(void **at, size_t alignment, size_t size);
void __real_free(void *old);

static bool is_given(void) {
    return asked++ != refused;
}

static void *counted(void *piece) {
    held += piece != NULL;
    return piece;
}

void *__wrap_malloc(size_t size) {
    return is_given() ? counted(__real_malloc(size)) : NULL;
}

void *__wrap_realloc(void *old, size_t size) {
    if (!is_given()) return NULL;
    return old == NULL ? counted(__real_realloc(old, size)) : __real_realloc(old, size);
}

void *__wrap_aligned_alloc(size_t alignment, size_t size) {
    return is_given() ? counted(__real_aligned_alloc(alignment, size)) : NULL;
}

int __wrap_posix_memalign(void **at, size_t alignment, size_t size) {
    int error = is_given() ? __real_posix_memalign(at, alignment, size) : 12;
    if (error == 0) counted(*at);
    return error;
}

void __wrap_free(void *old) {
    held -= old != NULL;
    __real_free(old);
}

// ---- calls that take memory

static uint32_t judge(struct uap_handle *handle, const void *text, size_t length) {
    char line[64];
    size_t written;
    (void)handle;
    return uap_config_check(text, length, line, sizeof line, &written);
}

static uint32_t place(struct uap_handle *handle, const void *text, size_t length) {
    struct uap_place place;
    (void)handle;
    return uap_config_place(text, length, &place);
}

static uint32_t open_publisher(struct uap_handle *handle, const void *text, size_t length) {
    return uap_publisher_open(handle, text, length);
}

static uint32_t open_subscriber(struct uap_handle *handle, const void *text, size_t length) {
    return uap_subscriber_open(handle, text, length);
}

// The call with each of its askings refused in turn, and then with none: then it answers this.
static void check_taking(uint32_t (*call)(struct uap_handle *, const void *, size_t), const char *text, uint32_t answer) {
    struct uap_handle handle = UAP_CLOSED_HANDLE;
    uint32_t index;
    const size_t before = held;
    for (refused = 0;; refused++) {
        asked = 0;
        uint32_t status = call(&handle, text, strlen(text));
        if (asked <= refused) {
            DEMAND(status == answer && asked > 0);
            break;
        }
        DEMAND(status == UAP_MEMORY && held == before);
        DEMAND(uap_dataset_index(&handle, "set", &index) == UAP_CLOSED);
    }
    refused = SIZE_MAX;
    DEMAND(uap_close(&handle) == UAP_OK && held == before);
}

// ---- calls that take none

static void check_others(void) {
    struct uap_handle publisher = UAP_CLOSED_HANDLE, subscriber = UAP_CLOSED_HANDLE;
    struct datagram datagram;
    struct uap_taken taken;
    const struct uap_key_set sets[] = {key_set(1, 0, 0xa), key_set(2, 150, 0xb)};
    const size_t before = held;
    open_sides(&publisher, &subscriber, small);
    asked = 0;
    DEMAND(uap_publisher_resume(&publisher, 0, 0, 50) == UAP_OK && uap_publisher_resume_with(&publisher, 0, 0, 1, 60, sets, 2) == UAP_OK);
    for (uint32_t now = 100; now < 1000; now += 100) {
        DEMAND(uap_set_u32(&publisher, 0, 0, now) == UAP_OK && next(&publisher, now, &datagram) == UAP_OK);
        DEMAND(uap_subscriber_datagram(&subscriber, 0, now, datagram.bytes, datagram.length, &taken) == UAP_OK && reads(&subscriber, 0, now));
        DEMAND(uap_subscriber_expire(&subscriber, now) == UAP_OK);
        DEMAND(uap_publisher_renew(&publisher, 0, sets, 2) == UAP_OK && uap_subscriber_renew(&subscriber, 0, sets, 2) == UAP_OK);
        DEMAND(uap_writer_disable(&publisher, 0, 0) == UAP_OK && uap_writer_enable(&publisher, 0, 0) == UAP_OK);
        DEMAND(uap_reader_disable(&subscriber, 0, 0) == UAP_OK && uap_reader_enable(&subscriber, 0, 0) == UAP_OK);
    }
    uint8_t state[UAP_STATE_BYTES];
    size_t length;
    uint32_t token;
    struct uap_takings takings;
    DEMAND(uap_writer_begin_at(&publisher, 0, 0, 9) == UAP_BEGUN && uap_publisher_save(&publisher, 9, state, sizeof state, &length) == UAP_OK);
    DEMAND(uap_publisher_stored(&publisher) == UAP_OK && uap_publisher_must_store(&publisher) == UAP_NONE);
    DEMAND(uap_publisher_restore(&publisher, 1000, state, length) == UAP_OK && uap_state_token(state, length, 0, &token) == UAP_OK);
    DEMAND(uap_subscriber_take(&subscriber, 1000, datagram.bytes, datagram.length, &takings) == UAP_OK);
    DEMAND(asked == 0);
    close_sides(&publisher, &subscriber);
    DEMAND(held == before);
}

void check_memory(void) {
    check_taking(judge, small, UAP_OK);
    check_taking(judge, "[publisher]\nid = 9\n", UAP_REFUSED);
    check_taking(place, small, UAP_NONE);
    check_taking(place, "[publisher]\nid = 9\n", UAP_OK);
    check_taking(open_publisher, small, UAP_OK);
    check_taking(open_subscriber, small, UAP_OK);
    check_others();
}
