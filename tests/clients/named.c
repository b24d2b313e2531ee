/* named: which texts name a session, how long a name may be, and what the environment is told of it. */
#include "library/session.h"

#include "check.h"

enum { LONGEST = KR_SESSION_NAME_ROOM - 1 };

static const struct {
    const char *text;
    int32_t serial;
    const char *name; /* NULL where the text names none */
} texts[] = {
    { "5:name", 5, "name" },
    { "2147483647:a:b", INT32_MAX, "a:b" },
    { "name", 0, "name" },
    { "2147483648:name", 0, "2147483648:name" },
    { "99999999999999999999:name", 0, "99999999999999999999:name" },
    { "0:name", 0, "0:name" },
    { "-5:name", 0, "-5:name" },
    { "+5:name", 0, "+5:name" },
    { " 5:name", 0, " 5:name" },
    { "5 :name", 0, "5 :name" },
    { "5", 0, "5" },
    { "", 0, NULL },
    { "5:", 0, NULL },
};

static void see_texts(void) {
    for (size_t i = 0; i < sizeof texts / sizeof *texts; i++) {
        struct kr_session session = { 0 };
        bool is_one = kr_parse_session(&session, texts[i].text);
        check(texts[i].text, is_one == (texts[i].name != NULL) &&
              (!is_one || (session.serial == texts[i].serial && strcmp(session.name, texts[i].name) == 0)));
    }
}

/* The longest name with the longest serial, and a byte more. What stands behind a session stays. */
static void see_lengths(void) {
    static char text[LONGEST + 32];
    struct {
        struct kr_session session;
        char behind;
    } room = { .behind = 'x' };
    memset(text, 'n', sizeof text - 1);
    char *name = text + sizeof text - 1 - LONGEST;
    check("the longest name", kr_name_session(&room.session, name) == 0 && strcmp(room.session.name, name) == 0);
    check("a byte more", refused(kr_name_session(&room.session, name - 1), EINVAL));
    memcpy(name - 11, "2147483647:", 11);
    check("a text of it", kr_parse_session(&room.session, name - 11) && room.session.serial == INT32_MAX);
    check("the environment is told all of it", kr_export_session(&room.session) == 0 &&
          strcmp(getenv(KR_SESSION_VARIABLE), name - 11) == 0);
    memcpy(name - 12, "2147483647:n", 12);
    check("a text of a byte more", !kr_parse_session(&room.session, name - 12));
    check("what stands behind", room.behind == 'x');
}

int main(void) {
    see_texts();
    see_lengths();
    return conclude("named");
}
