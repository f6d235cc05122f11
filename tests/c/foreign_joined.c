// A socket of examples/c/joined.h hears a datagram to its multicast group, on the loopback interface.
#define _DEFAULT_SOURCE
#include "../../examples/c/joined.h"
#include <poll.h>
#include <stdio.h>
#include <string.h>

static const char group[] = "239.255.48.40", interface[] = "127.0.0.1";

static int sent_to(uint16_t port) {
    struct sockaddr_in to = {.sin_family = AF_INET, .sin_port = htons(port)};
    struct in_addr from;
    int it = socket(AF_INET, SOCK_DGRAM, 0);
    inet_pton(AF_INET, group, &to.sin_addr);
    inet_pton(AF_INET, interface, &from);
    int sent = setsockopt(it, IPPROTO_IP, IP_MULTICAST_IF, &from, sizeof from) == 0 &&
               sendto(it, "hello", 5, 0, (struct sockaddr *)&to, sizeof to) == 5;
    close(it);
    return sent;
}

int main(void) {
    char bytes[16];
    int hears = joined(group, 0, interface);
    struct sockaddr_in name;
    socklen_t size = sizeof name;
    if (hears < 0 || getsockname(hears, (struct sockaddr *)&name, &size) != 0) return perror("joined"), 1;
    struct pollfd waits = {.fd = hears, .events = POLLIN};
    if (!sent_to(ntohs(name.sin_port))) return perror("sent"), 1;
    if (poll(&waits, 1, 5000) != 1 || recv(hears, bytes, sizeof bytes, 0) != 5 || memcmp(bytes, "hello", 5) != 0) return fputs("nothing is heard\n", stderr), 1;
    if (joined("127.0.0.1", 0, interface) >= 0 || joined("no group", 0, interface) >= 0) return fputs("no group is joined\n", stderr), 1;
    close(hears);
    return 0;
}
