/* calls: the rows of rows.c, for tables.py: the number of a call, its name, `serial` where it is answered with one,
 * `refused` where nothing is asked, and what its arguments are. */
#include <stdio.h>

#include "common/caller.h"

static const char *const kinds[] = { [KEY_NUMBER] = "number", [KEY_ID] = "id",        [KEY_TYPE] = "text",
                                     [KEY_TEXT] = "text",     [KEY_PAYLOAD] = "blob", [KEY_ROOM] = "room" };

int main(void) {
    for (const struct key_row *row = key_rows; row->name; row++) {
        printf("%d %s %s %s", row->call, row->name, row->answers_serial ? "serial" : "-",
               row->refused ? "refused" : "-");
        for (int i = 0; i < KEY_ARGUMENTS; i++) printf(" %s", kinds[row->at[i]]);
        puts("");
    }
}
