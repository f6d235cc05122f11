// A drive: it publishes its motion, its health and its plate, and turns as the set points of its gateway say. Where these aren't fresh it goes to
// its safe state. In C11 with POSIX and libuapubsub_c.a.
//
// usage: drive CONFIG PORT PEER-PORT KEYS     (both ports of 127.0.0.1; KEYS as plant.h has it)
//
// CONFIG.state has what it used of its keys' numbers, and CONFIG.state.lock keeps a second drive away. It runs until it is killed.
#define _DEFAULT_SOURCE
#include "plant.h"

// A round, at most half the shortest interval; how many datagrams it takes at most; and how often the counts are told.
enum { ROUND_MS = 10, MOST_A_ROUND = 64, TOLD_MS = 1000 };

// How old a set point may be with which the drive turns.
enum { BOUND_MS = 500 };

// How many numbers are stored ahead: a restart skips more than 16,384 of them, so that readers begin anew. And after how many datagrams they are
// stored anew at the latest: a message number is stored at most 8,192 ahead, and uap_publisher_must_store doesn't look at those.
enum { AHEAD = 65536, STORED_EACH = 4096 };

enum data_set { MOTION, HEALTH, PLATE, SETPOINT, DATA_SETS };
static const char *const SETS[DATA_SETS] = {"motion", "health", "plate", "setpoint"};

enum field { CYCLE, SPEED, TORQUE, RUNS, HEALTH_CYCLE, CELSIUS, LOST, NOTE, PLATE_CYCLE, ENERGY, STARTED_AT, LABEL, TARGET, ENABLE, FIELDS };
static const struct {
    enum data_set set;
    uint32_t kind;
    const char *name;
} NAMED[FIELDS] = {
    [CYCLE] = {MOTION, UAP_UINT32, "cycle"},       [SPEED] = {MOTION, UAP_FLOAT, "speed"},     [TORQUE] = {MOTION, UAP_FLOAT, "torque"},
    [RUNS] = {MOTION, UAP_BOOLEAN, "runs"},        [HEALTH_CYCLE] = {HEALTH, UAP_UINT32, "cycle"}, [CELSIUS] = {HEALTH, UAP_FLOAT, "celsius"},
    [LOST] = {HEALTH, UAP_UINT64, "lost"},         [NOTE] = {HEALTH, UAP_STRING, "note"},      [PLATE_CYCLE] = {PLATE, UAP_UINT32, "cycle"},
    [ENERGY] = {PLATE, UAP_DOUBLE, "energy"},      [STARTED_AT] = {PLATE, UAP_DATE_TIME, "started_at"}, [LABEL] = {PLATE, UAP_STRING, "label"},
    [TARGET] = {SETPOINT, UAP_FLOAT, "speed"},     [ENABLE] = {SETPOINT, UAP_BOOLEAN, "enable"},
};

struct drive {
    struct uap_handle publisher, subscriber;
    struct uap_posix_udp udp;
    struct plant_keys keys;
    char state[UAP_POSIX_NAME_ROOM];                // the file of the state
    uint32_t set[DATA_SETS], field[FIELDS];         // where the configuration has them
    uint32_t orders, setpoint;                      // the read group and the reader of the set points
    // the machine: why it runs (UAP_OK) or is in its safe state
    uint32_t fresh;
    bool runs;
    float speed, celsius;
    double energy;
    uint64_t started_ms;
    // what was logged last
    char row[PLANT_ROW_BYTES];
    uint64_t told_ms;
    bool spent;
    unsigned long sent, failed, stored;             // datagrams, and how many of them when the state was stored last
};

static uint8_t datagram[UAP_MOST_DATAGRAM_BYTES];

// ---- the opening

// The indexes of what this drive sets and reads, each of its kind, so that no call misfits later.
static void bind_names(struct drive *drive) {
    struct uap_field info;
    for (int i = 0; i < DATA_SETS; i++)
        plant_demand(uap_dataset_index(&drive->publisher, SETS[i], &drive->set[i]) == UAP_OK, "the configuration lacks a data set");
    for (int i = 0; i < FIELDS; i++) {
        uint32_t set = drive->set[NAMED[i].set];
        plant_demand(uap_field_index(&drive->publisher, set, NAMED[i].name, &drive->field[i]) == UAP_OK, "the configuration lacks a field");
        plant_demand(uap_field_info(&drive->publisher, set, drive->field[i], &info) == UAP_OK && info.kind == NAMED[i].kind, "a field is of another kind");
    }
    plant_demand(uap_read_group_index(&drive->subscriber, "orders", &drive->orders) == UAP_OK &&
                     uap_reader_index(&drive->subscriber, drive->orders, "setpoint", &drive->setpoint) == UAP_OK,
                 "the configuration lacks the reader of the set points");
}

static void open_sides(struct drive *drive, const char *config) {
    static char text[1 << 16];
    char line[256];
    size_t length, written;
    plant_demand(uap_posix_read(config, text, sizeof text, &length) == 0, "cannot read the configuration");
    if (uap_config_check(text, length, line, sizeof line - 1, &written) == UAP_REFUSED) {
        line[written] = '\0';
        plant_demand(false, line);
    }
    plant_demand(uap_publisher_open(&drive->publisher, text, length) == UAP_OK, "cannot open the publisher");
    plant_demand(uap_subscriber_open(&drive->subscriber, text, length) == UAP_OK, "cannot open the subscriber");
    bind_names(drive);
}

// ---- keys and numbers

// Both sides go on with new keys, but a read group without keys.
static bool renew(struct drive *drive, uint64_t now) {
    const struct plant_keys *keys = &drive->keys;
    size_t groups = 0;
    if (!plant_keys_came(&drive->keys, now) || uap_read_group_count(&drive->subscriber, &groups) != UAP_OK) return false;
    uint32_t status = uap_publisher_renew(&drive->publisher, 0, keys->sets, keys->count);
    for (uint32_t group = 0; group < groups && status == UAP_OK; group++) {
        status = uap_subscriber_renew(&drive->subscriber, group, keys->sets, keys->count);
        if (status == UAP_INDEX) status = UAP_OK;
    }
    plant_log("keys %s: tokens %" PRIu32 " to %" PRIu32, uap_status_name(status), keys->sets[0].token, keys->sets[keys->count - 1].token);
    return status == UAP_OK;
}

// Has the disk keep what is used, and a reserve, before any of it is sent.
static void store(struct drive *drive) {
    uint8_t bytes[UAP_STATE_BYTES];
    size_t length;
    plant_demand(uap_publisher_save(&drive->publisher, AHEAD, bytes, sizeof bytes, &length) == UAP_OK, "cannot save the state");
    plant_demand(uap_posix_write(drive->state, bytes, length, 0600) == 0, "cannot store the state");
    plant_demand(uap_publisher_stored(&drive->publisher) == UAP_OK, "cannot save the state");
    drive->stored = drive->sent;
}

// Goes on after the life before, under the keys that it has now.
static void restore(struct drive *drive, const char *config) {
    char lock[UAP_POSIX_NAME_ROOM];
    uint8_t bytes[UAP_STATE_BYTES];
    size_t length;
    plant_demand(snprintf(drive->state, sizeof drive->state, "%s.state", config) < UAP_POSIX_NAME_ROOM - 5, "the configuration's name is too long");
    snprintf(lock, sizeof lock, "%.4090s.lock", drive->state);
    plant_demand(uap_posix_lock(lock) == 0, "another drive has this state");
    int failed = uap_posix_read(drive->state, bytes, sizeof bytes, &length);
    plant_demand(failed == 0 || failed == ENOENT, "cannot read the state");
    uint32_t status = failed == ENOENT ? UAP_OK : uap_publisher_restore(&drive->publisher, plant_now(), bytes, length);
    plant_demand(status == UAP_OK, uap_status_name(status));
    plant_log("begins %s", failed == ENOENT ? "without a state" : "after its state");
    store(drive);
}

// ---- the machine

static void receive(struct drive *drive, uint64_t now) {
    struct uap_takings takings;
    size_t length;
    for (int i = 0; i < MOST_A_ROUND && uap_posix_receive(&drive->udp, datagram, sizeof datagram, &length) == 0; i++)
        plant_demand(uap_subscriber_take(&drive->subscriber, now, datagram, length, &takings) == UAP_OK, "cannot subscribe");
    plant_demand(uap_subscriber_expire(&drive->subscriber, now) == UAP_OK, "cannot subscribe");
}

// Says why the machine is in its safe state, or that it runs, where that is new.
static void tell(struct drive *drive, uint32_t fresh, bool runs) {
    uint32_t why = UAP_WHY_START;
    if (fresh == drive->fresh && runs == drive->runs) return;
    drive->fresh = fresh;
    drive->runs = runs;
    uap_reader_why(&drive->subscriber, drive->orders, drive->setpoint, &why);
    if (runs) plant_log("runs");
    else plant_log("safe %s %s", uap_status_name(fresh), fresh == UAP_NONE ? uap_why_name(why) : fresh == UAP_OK ? "disabled" : "");
}

// Turns as a fresh set point says that enables it; else it stops.
static void steer(struct drive *drive, uint64_t now) {
    struct uap_handle *subscriber = &drive->subscriber;
    float target = 0;
    bool enable = false;
    uint32_t fresh = uap_reader_is_fresh(subscriber, drive->orders, drive->setpoint, now, BOUND_MS);
    bool runs = fresh == UAP_OK && uap_get_bool(subscriber, drive->orders, drive->setpoint, drive->field[ENABLE], &enable) == UAP_OK && enable &&
                uap_get_f32(subscriber, drive->orders, drive->setpoint, drive->field[TARGET], &target) == UAP_OK;
    tell(drive, fresh, runs);
    float wanted = runs ? target : 0, step = runs ? 5 : 50;
    drive->speed += wanted > drive->speed + step ? step : wanted < drive->speed - step ? -step : wanted - drive->speed;
    drive->celsius += (40 + drive->speed / 100 - drive->celsius) / 100;
    drive->energy += (double)drive->speed * ROUND_MS / 3.6e6;
}

// The set point that is held, where it is another than before.
static void show(struct drive *drive) {
    const struct plant_row row = {.handle = &drive->subscriber, .set = drive->set[SETPOINT], .group = drive->orders, .reader = drive->setpoint};
    char line[PLANT_ROW_BYTES];
    if (plant_row_text(&row, line, sizeof line) != UAP_OK || strcmp(line, drive->row) == 0) return;
    strcpy(drive->row, line);
    plant_log("row setpoint %s", line);
}

// ---- publishing

static void demand_set(uint32_t status) {
    plant_demand(status == UAP_OK, "cannot set a field");
}

static void log_own(struct drive *drive, enum data_set set) {
    const struct plant_row row = {.handle = &drive->publisher, .is_own = true, .set = drive->set[set]};
    char line[PLANT_ROW_BYTES];
    plant_demand(plant_row_text(&row, line, sizeof line) == UAP_OK, "cannot read the own row");
    plant_log("set %s %s", SETS[set], line);
}

// Sets the rows as a whole, before the next turn.
static void sample(struct drive *drive, uint64_t now) {
    struct uap_handle *publisher = &drive->publisher;
    const uint32_t *set = drive->set, *field = drive->field, cycle = (uint32_t)(now / ROUND_MS);
    struct uap_received received = {0};
    uap_reader_received(&drive->subscriber, drive->orders, drive->setpoint, &received);
    demand_set(uap_set_u32(publisher, set[MOTION], field[CYCLE], cycle));
    demand_set(uap_set_f32(publisher, set[MOTION], field[SPEED], drive->speed));
    demand_set(uap_set_f32(publisher, set[MOTION], field[TORQUE], drive->speed / 300 + (float)(cycle % 7)));
    demand_set(uap_set_bool(publisher, set[MOTION], field[RUNS], drive->runs));
    demand_set(uap_set_u32(publisher, set[HEALTH], field[HEALTH_CYCLE], cycle));
    demand_set(uap_set_f32(publisher, set[HEALTH], field[CELSIUS], drive->celsius));
    demand_set(uap_set_u64(publisher, set[HEALTH], field[LOST], received.lost));
    demand_set(uap_set_text(publisher, set[HEALTH], field[NOTE], uap_status_name(drive->fresh)));
    demand_set(uap_set_u32(publisher, set[PLATE], field[PLATE_CYCLE], cycle));
    demand_set(uap_set_f64(publisher, set[PLATE], field[ENERGY], drive->energy));
    demand_set(uap_set_date_time(publisher, set[PLATE], field[STARTED_AT], plant_date_time(drive->started_ms)));
    demand_set(uap_set_text(publisher, set[PLATE], field[LABEL], "drive 401"));
    for (int i = MOTION; i <= PLATE; i++) log_own(drive, (enum data_set)i);
}

// Sends what is due. A datagram that the system doesn't take is lost, as it may be on its way.
static void publish(struct drive *drive, uint64_t now) {
    size_t length;
    uint32_t status;
    if (uap_publisher_must_store(&drive->publisher) == UAP_OK || drive->sent - drive->stored >= STORED_EACH) store(drive);
    while ((status = uap_publisher_next(&drive->publisher, now, datagram, sizeof datagram, &length)) == UAP_OK || status == UAP_UNSTORED) {
        if (status == UAP_UNSTORED) store(drive);
        else if (uap_posix_send(&drive->udp, datagram, length) == 0) drive->sent++;
        else drive->failed++;
    }
    plant_demand(status == UAP_NONE || status == UAP_SPENT, "cannot publish");
    if (status == UAP_SPENT && !drive->spent) plant_log("spent: the key group needs a later token");
    drive->spent = status == UAP_SPENT;
}

// What came, now and then: lost set points, those that were passed over, and datagrams that were refused.
static void count(struct drive *drive, uint64_t now) {
    struct uap_received received = {0};
    struct uap_passed passed = {0};
    struct uap_refused refused = {0};
    uint32_t token = 0, used = 0;
    if (now < drive->told_ms) return;
    drive->told_ms = now + TOLD_MS;
    uap_reader_received(&drive->subscriber, drive->orders, drive->setpoint, &received);
    uap_reader_passed(&drive->subscriber, drive->orders, drive->setpoint, &passed);
    uap_read_group_refused(&drive->subscriber, drive->orders, &refused);
    uap_publisher_standing(&drive->publisher, 0, &token, &used);
    plant_log("count setpoint lost %" PRIu64 " stored %" PRIu64 " passed %" PRIu64 " refused %" PRIu64 " %s", received.lost, received.stored,
              passed.other_major + passed.unnumbered + passed.older, refused.count, uap_status_name(refused.status));
    plant_log("sent %lu failed %lu token %" PRIu32 " number %" PRIu32, drive->sent, drive->failed, token, used);
}

static _Noreturn void run(struct drive *drive) {
    for (;;) {
        int waited = uap_posix_wait(&drive->udp, uap_posix_now_ms() + ROUND_MS);
        plant_demand(waited == 0 || waited == EINTR, "cannot wait");
        uint64_t now = plant_now();
        renew(drive, now);
        receive(drive, now);
        steer(drive, now);
        show(drive);
        sample(drive, now);
        publish(drive, now);
        count(drive, now);
    }
}

int main(int words, char **word) {
    static struct drive drive = {.publisher = UAP_CLOSED_HANDLE, .subscriber = UAP_CLOSED_HANDLE, .fresh = UINT32_MAX, .celsius = 40};
    plant_demand(words == 5, "usage: drive CONFIG PORT PEER-PORT KEYS");
    setvbuf(stdout, NULL, _IOLBF, 0);
    drive.started_ms = plant_now();
    drive.keys.name = word[4];
    open_sides(&drive, word[1]);
    plant_demand(uap_posix_udp_open(&drive.udp, "127.0.0.1", plant_port(word[2]), "127.0.0.1", plant_port(word[3]), 0) == 0, "cannot open the port");
    plant_demand(renew(&drive, plant_now()), "no keys");
    restore(&drive, word[1]);
    run(&drive);
}
