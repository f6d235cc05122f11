/* Both sides in one program: six rows are published, one datagram is lost, and the subscriber shows what it holds. */
#include <inttypes.h>
#include <stdio.h>
#include <uapubsub.h>

static const char configuration[] =
    "publisher = {id = 'u16:2234'}\n"
    "dataset = [{name = 'press', field = [{name = 'strokes', kind = 'UInt32'}]}]\n"
    "group = [{name = 'fast', id = 1, interval = 100, writer = [{name = 'w', id = 10, dataset = 'press', key_frame_count = 3}]}]\n"
    "readgroup = [{name = 'panel', publisher = 'u16:2234', group = 1, reader = [{name = 'r', writer = 10, dataset = 'press'}]}]\n";

int main(void) {
    struct uap_handle publisher = UAP_CLOSED_HANDLE, subscriber = UAP_CLOSED_HANDLE;
    if (uap_publisher_open(&publisher, configuration, sizeof configuration - 1) != UAP_OK) return 1;
    if (uap_subscriber_open(&subscriber, configuration, sizeof configuration - 1) != UAP_OK) return 1;
    for (uint32_t stroke = 1; stroke <= 6; stroke++) {
        uint64_t now = 100 * stroke; /* the program's clock, in milliseconds */
        uint8_t datagram[1400];
        size_t length;
        struct uap_taken taken;
        uap_set_u32(&publisher, 0, 0, stroke); /* data set 0, field 0 */
        while (uap_publisher_next(&publisher, now, datagram, sizeof datagram, &length) == UAP_OK) {
            if (stroke == 2) continue; /* the network loses this one */
            uap_subscriber_datagram(&subscriber, 0, now, datagram, length, &taken); /* read group 0 */
        }
        uint32_t value = 0, why = 0;
        if (uap_get_u32(&subscriber, 0, 0, 0, &value) == UAP_OK) printf("%" PRIu64 " ms: stroke %" PRIu32 "\n", now, value);
        else if (uap_reader_why(&subscriber, 0, 0, &why) == UAP_NONE) printf("%" PRIu64 " ms: no row, %s\n", now, uap_why_name(why));
    }
    uap_close(&publisher);
    return uap_close(&subscriber) == UAP_OK ? 0 : 1;
}
