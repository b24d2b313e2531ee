/* codec: the asks of the C client, for tables.py. Without words it prints the table of asks and that of statuses; else
 * it reads lines `TAG NUMBER CONTEXT FIELD ..` and prints each ask's frame. A field is a number, or a letter and then
 * bytes in hexadecimal: t for text, b for a blob, g for groups, e for entries. */
#include <stdio.h>
#include <stdlib.h>
#include <string.h>

#include "library/connection.h"

static const char *const form_names[] = { "", "id", "u8", "u32", "i32", "text", "blob", "groups", "entries" };
static const char *const answer_names[] = { "nothing", "number", "serial", "bytes" };

static void print_tables(void) {
    for (size_t i = 0; i < kr_ask_form_count; i++) {
        const struct kr_ask_form *form = &kr_ask_forms[i];
        printf("ask %u %s %s", (unsigned)form->operation, form->name, answer_names[form->answer]);
        for (const enum kr_field_form *field = form->fields; *field != KR_END; field++)
            printf(" %s", form_names[*field]);
        puts("");
    }
    for (size_t i = 0; i < kr_status_count; i++)
        printf("status %u %s %d\n", (unsigned)kr_statuses[i].number, kr_statuses[i].name, kr_statuses[i].error);
}

static size_t item_size(char letter) { return letter == 'g' ? 4 : letter == 'e' ? 44 : 1; }

static struct kr_field read_field(const char *word) {
    struct kr_field field = { 0 };
    if (!strchr("tbge", *word)) {
        field.number = (uint32_t)strtoll(word, NULL, 10);
        return field;
    }
    size_t length = strlen(word + 1) / 2;
    uint8_t *bytes = calloc(1, length + 1);
    for (size_t i = 0; i < length; i++) sscanf(word + 1 + 2 * i, "%2hhx", &bytes[i]);
    field.items = bytes;
    field.count = length / item_size(*word);
    return field;
}

static void encode_line(char *line) {
    static uint8_t out[KR_ASK_ROOM];
    struct kr_field fields[KR_FIELDS] = { { 0 } };
    uint64_t tag = strtoull(strtok(line, " \n"), NULL, 10);
    const struct kr_ask_form *form = kr_ask_form((unsigned)atoi(strtok(NULL, " \n")));
    uint32_t context = (uint32_t)strtoul(strtok(NULL, " \n"), NULL, 10);
    char *word;
    for (size_t i = 0; i < KR_FIELDS && (word = strtok(NULL, " \n")); i++) fields[i] = read_field(word);
    size_t length = form ? kr_encode_ask(out, tag, form, context, fields) : 0;
    for (size_t i = 0; i < length; i++) printf("%02x", out[i]);
    puts("");
    for (size_t i = 0; i < KR_FIELDS; i++) free((void *)fields[i].items);
}

int main(int count, char **words) {
    static char line[1 << 18];
    (void)words;
    if (count == 1)
        print_tables();
    else
        while (fgets(line, sizeof line, stdin)) encode_line(line);
    return 0;
}
