// Where a configuration is at fault: the number of the fault, and the line where the table begins.
#include "calls.h"

static bool stands(const char *text, uint32_t code, size_t line) {
    struct uap_place place = {77, 77};
    char said[64];
    size_t written;
    char number[8];
    DEMAND(uap_config_check(text, strlen(text), said, sizeof said, &written) == UAP_REFUSED);
    snprintf(number, sizeof number, "C%u ", (unsigned)code);
    return uap_config_place(text, strlen(text), &place) == UAP_OK && place.code == code && place.line == line && memcmp(said + 8, number, strlen(number)) == 0;
}

#define HEAD "publisher = {id = 'u8:9'}\n[[dataset]]\nname = 'set'\n[[dataset.field]]\nname = 'level'\nkind = 'UInt32'\n"
#define GROUP(more) "[[group]]\nname = 'group'\nid = 1\ninterval = 100\n" more "[[group.writer]]\nname = 'writer'\nid = 1\ndataset = 'set'\n"

void check_places(void) {
    struct uap_place place = {77, 77};
    DEMAND(stands("", 3, 1) && stands("\n\n", 3, 1) && stands("nonsense = ", 1, 1) && stands("# a\n\n[publisher\n", 1, 3) && stands("a = 1\na = 2\nb = 3\n", 1, 2));
    DEMAND(stands("nonsense = 1\n", 2, 1));
    DEMAND(stands(HEAD GROUP("speed = 1\n"), 2, 7) && stands(HEAD "# one\n\n" GROUP("interval_ms = 1\n"), 2, 9));
    DEMAND(stands(HEAD "[[dataset.field]]\nname = 'other'\nkind = 'Text'\n", 10, 7) && stands(HEAD "[[dataset.field]]\n\nname = 'level'\nkind = 'Float'", 7, 7));
    DEMAND(stands(HEAD GROUP("") "[[group]]\nname = 'again'\nid = 1\ninterval = 100\n", 18, 15));
    // a table in one line, one of several lines, and the last line without an end
    DEMAND(stands("group = [\n  {name = 'group', id = 1, interval = 0},\n]\n" HEAD, 9, 3) && stands("group = [{name = 'group', id = 1, interval = 0}]\n" HEAD, 9, 1));
    DEMAND(stands("publisher = {id = 'u9:9'}", 8, 1) && stands("publisher = {id = 'u9:9'}\n[[dataset]]\n", 3, 2));
    DEMAND(uap_config_place(HEAD GROUP(""), strlen(HEAD GROUP("")), &place) == UAP_NONE && place.code == 77 && place.line == 77);
    DEMAND(uap_config_place(NULL, 0, &place) == UAP_NULL && uap_config_place("", 0, NULL) == UAP_NULL);
}
