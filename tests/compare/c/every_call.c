/* Calls every function of the library once for each thing that the requirements' own table says,
 * then the same in the older coding, and under a number that is no coding's; moves a stored message
 * over; and prints what it answers. every_call.txt is what they say it must print. */
#include "scalgo.h"

#include <stdio.h>
#include <string.h>

/* N and O: a table with a U16 and a text, and the older with the U16 alone. */
static const uint8_t newer[] = {0, 0, 0, 1, 0, 0x4C, 0x49, 0x43, 0x45, 2, 0x10, 0, 0x68, 0};
static const uint8_t older[] = {0, 0, 0, 1, 0, 0x4C, 0x49, 0x43, 0x45, 1, 0x10, 0};

/* M, and the same in 32 bits. */
static const uint8_t message_48[] = {
    0xB3, 0xC4, 0xC0, 0xB5, 0x0A, 0, 0, 0, 0, 0,
    0x45, 0x43, 0x49, 0x4C, 8, 0, 0, 0, 0, 0, 3, 0, 0x1C, 0, 0, 0, 0, 0,
    0xF5, 0xC8, 0x12, 0xD8, 2, 0, 0, 0, 0, 0, 'a', 'b', 0,
};
static const uint8_t message_32[] = {
    0xB3, 0xC4, 0xC0, 0xB5, 8, 0, 0, 0,
    0x45, 0x43, 0x49, 0x4C, 6, 0, 0, 0, 3, 0, 0x16, 0, 0, 0,
    0xF5, 0xC8, 0x12, 0xD8, 2, 0, 0, 0, 'a', 'b', 0,
};

/* A table with a list of texts, and a message with "ab", none, and one whose offset is 9, or 7. */
static const uint8_t texts[] = {0, 1, 0, 1, 0, 0x68, 0, 0x4C, 0x49, 0x43, 0x45, 1, 0x78, 0};
static const uint8_t list_48[] = {
    0xB3, 0xC4, 0xC0, 0xB5, 0x0A, 0, 0, 0, 0, 0,
    0x45, 0x43, 0x49, 0x4C, 6, 0, 0, 0, 0, 0, 0x1A, 0, 0, 0, 0, 0,
    0x46, 0xBB, 0x00, 0x34, 3, 0, 0, 0, 0, 0,
    0x36, 0, 0, 0, 0, 0, 0, 0, 0, 0, 0, 0, 9, 0, 0, 0, 0, 0,
    0xF5, 0xC8, 0x12, 0xD8, 2, 0, 0, 0, 0, 0, 'a', 'b', 0,
};
static const uint8_t list_32[] = {
    0xB3, 0xC4, 0xC0, 0xB5, 8, 0, 0, 0,
    0x45, 0x43, 0x49, 0x4C, 4, 0, 0, 0, 0x14, 0, 0, 0,
    0x46, 0xBB, 0x00, 0x34, 3, 0, 0, 0,
    0x28, 0, 0, 0, 0, 0, 0, 0, 7, 0, 0, 0,
    0xF5, 0xC8, 0x12, 0xD8, 2, 0, 0, 0, 'a', 'b', 0,
};

/* A table with a union of a text, in place and not; and a message with "ab" in place. */
static const uint8_t in_place[] = {0, 0, 1, 1, 0, 1, 0x68, 0, 0x4C, 0x49, 0x43, 0x45, 1, 0x8A, 0};
static const uint8_t by_offset[] = {0, 0, 1, 1, 0, 1, 0x68, 0, 0x4C, 0x49, 0x43, 0x45, 1, 0x88, 0};
static const uint8_t union_48[] = {
    0xB3, 0xC4, 0xC0, 0xB5, 0x0A, 0, 0, 0, 0, 0,
    0x45, 0x43, 0x49, 0x4C, 8, 0, 0, 0, 0, 0, 1, 0, 2, 0, 0, 0, 0, 0, 'a', 'b', 0,
};
static const uint8_t union_32[] = {
    0xB3, 0xC4, 0xC0, 0xB5, 8, 0, 0, 0,
    0x45, 0x43, 0x49, 0x4C, 6, 0, 0, 0, 1, 0, 2, 0, 0, 0, 'a', 'b', 0,
};

/* A table with a U8 and a struct of a bool, and a message in which that bool is 2. */
static const uint8_t structs[] = {1, 0, 0, 1, 0, 1, 0, 0, 0x4C, 0x49, 0x43, 0x45, 2, 8, 0, 0x60, 0};
static const uint8_t struct_48[] = {
    0xB3, 0xC4, 0xC0, 0xB5, 0x0A, 0, 0, 0, 0, 0,
    0x45, 0x43, 0x49, 0x4C, 2, 0, 0, 0, 0, 0, 5, 2,
};
static const uint8_t struct_32[] = {
    0xB3, 0xC4, 0xC0, 0xB5, 8, 0, 0, 0, 0x45, 0x43, 0x49, 0x4C, 2, 0, 0, 0, 5, 2,
};

/* A coding, and what there is in it. */
struct coded {
    uint32_t coding;
    const uint8_t *message, *list, *union_, *struct_;
    size_t message_len, list_len, union_len, struct_len;
    size_t length_at, offset_at; /* the root's length and the text's offset in the message */
    uint8_t under;               /* the last offset that is too small, and size */
};

static const struct coded codings[] = {
    {SCALGO_CODING_48, message_48, list_48, union_48, struct_48,
     sizeof message_48, sizeof list_48, sizeof union_48, sizeof struct_48, 14, 22, 9},
    {SCALGO_CODING_32, message_32, list_32, union_32, struct_32,
     sizeof message_32, sizeof list_32, sizeof union_32, sizeof struct_32, 12, 18, 7},
};

static void print_numbers(const uint64_t *numbers, size_t count) {
    for (size_t i = 0; i < count; i++) {
        printf("%s%llu", i == 0 ? "" : " ", (unsigned long long)numbers[i]);
    }
    printf("\n");
}

static void print_bytes(const uint8_t *bytes, size_t count) {
    for (size_t i = 0; i < count; i++) {
        printf("%s%02X", i == 0 ? "" : " ", (unsigned)bytes[i]);
    }
    printf("\n");
}

/* The table of positions of a schema, with no bytes where the schema is not lawful. */
static uint8_t table[SCALGO_POSITIONS_ROOM];

static size_t table_of(uint32_t coding, const uint8_t *schema, size_t schema_len) {
    uint64_t length = 99;
    scalgo_positions(coding, schema, schema_len, table, sizeof table, &length);
    return (size_t)length;
}

/* The message with one byte changed. */
static const uint8_t *changed(const struct coded *in, size_t at, uint8_t byte) {
    static uint8_t copy[sizeof message_48];
    memcpy(copy, in->message, in->message_len);
    copy[at] = byte;
    return copy;
}

/* Prints what was stored, behind what was answered. */
static void print_verdict(uint32_t answered, const scalgo_verdict *verdict) {
    uint64_t numbers[6] = {answered, verdict->number, verdict->place, verdict->member,
                           verdict->visits, verdict->content};
    print_numbers(numbers, 6);
}

static void judge_within(uint32_t coding, const uint8_t *schema, size_t schema_len,
                         const uint8_t *bytes, size_t len, uint32_t visits, uint64_t content) {
    scalgo_verdict verdict = {99, 99, 99, 99, 99};
    size_t table_len = table_of(coding, schema, schema_len);
    uint32_t number = scalgo_judge(coding, schema, schema_len, table, table_len, bytes, len, visits,
                                   content, &verdict);
    print_verdict(number, &verdict);
}

static void judge(uint32_t coding, const uint8_t *schema, size_t schema_len, const uint8_t *bytes,
                  size_t len, uint32_t visits) {
    judge_within(coding, schema, schema_len, bytes, len, visits, SCALGO_ALL_CONTENT);
}

static void judges(const struct coded *in) {
    uint32_t coding = in->coding;
    size_t len = in->message_len;
    judge(coding, newer, sizeof newer, in->message, len, 2);
    judge(coding, newer, sizeof newer, in->message, len, 1);
    judge(coding, newer, sizeof newer, in->message, len, 0);
    judge(coding, older, sizeof older, in->message, len, 1);
    judge(coding, newer, sizeof newer, changed(in, in->length_at, 5), len, 2);
    judge(coding, newer, sizeof newer, changed(in, len - 1, 1), len, 2);
    judge(coding, newer, sizeof newer, in->message, len - 1, 2);
    judge(coding, newer, sizeof newer, in->message, 0, 2);
    judge(coding, newer, sizeof newer, changed(in, in->offset_at, in->under), len, 2);
}

/* One field and, where it is a text, its part. */
static void field(uint32_t coding, const uint8_t *schema, size_t schema_len, const uint8_t *bytes,
                  size_t len, const uint32_t *path, size_t path_len) {
    size_t table_len = table_of(coding, schema, schema_len);
    uint64_t n[4] = {99, 99, 99, 99};
    n[0] = scalgo_field(coding, schema, schema_len, table, table_len, bytes, len, path, path_len,
                        &n[1], &n[2], &n[3]);
    print_numbers(n, 4);
    uint64_t part[3] = {99, 99, 99};
    part[0] = scalgo_text(coding, schema, schema_len, table, table_len, bytes, len, path, path_len,
                          &part[1], &part[2]);
    print_numbers(part, 3);
    if (part[0] == 1) {
        print_bytes(bytes + part[1], (size_t)part[2]);
    }
}

static void fields(const struct coded *in) {
    static const uint32_t first[] = {0};
    static const uint32_t second[] = {1};
    static const uint32_t long_path[97] = {0};
    uint32_t coding = in->coding;
    const uint8_t *message = in->message;
    size_t len = in->message_len;
    field(coding, newer, sizeof newer, message, len, first, 0);
    field(coding, newer, sizeof newer, message, len, first, 1);
    field(coding, newer, sizeof newer, message, len, second, 1);
    field(coding, older, sizeof older, message, len, second, 1);
    field(coding, newer, sizeof newer, changed(in, in->length_at, 2), len, second, 1);
    field(coding, newer, sizeof newer, changed(in, in->length_at, 5), len, second, 1);
    field(coding, newer, sizeof newer, changed(in, len - 1, 1), len, second, 1);
    field(coding, newer, sizeof newer, message, len, long_path, 97);
    field(coding, message, len, message, len, first, 1);
}

/* So many steps from an element on at the path of the first member. */
static void list_from(uint32_t coding, const uint8_t *schema, size_t schema_len,
                      const uint8_t *bytes, size_t len, uint64_t from, size_t steps) {
    static const uint32_t path[] = {0};
    uint64_t cases[4 * 4 + 1];
    memset(cases, 0x55, sizeof cases);
    size_t table_len = table_of(coding, schema, schema_len);
    uint64_t count = scalgo_list(coding, schema, schema_len, table, table_len, bytes, len, path, 1,
                                 from, cases, 4 * steps + 1);
    print_numbers(&count, 1);
    for (size_t i = 0; i < steps; i++) {
        print_numbers(cases + 4 * i, 4);
    }
    printf("%s\n", cases[4 * steps] == 0x5555555555555555u ? "kept" : "changed");
}

static void lists(const struct coded *in) {
    list_from(in->coding, texts, sizeof texts, in->list, in->list_len, 0, 4);
    list_from(in->coding, texts, sizeof texts, in->list, in->list_len, 2, 1);
    /* Not a list of texts: a number, and a path that is refused. */
    list_from(in->coding, newer, sizeof newer, in->message, in->message_len, 0, 1);
    list_from(in->coding, texts, sizeof texts, in->list, in->under, 0, 1);
}

static void read_with(uint32_t coding, const struct coded *in, uint32_t visits, uint64_t content,
                      size_t room) {
    uint8_t sheet[12];
    scalgo_verdict verdict = {99, 99, 99, 99, 99};
    uint64_t length = 99;
    memset(sheet, 0xEE, sizeof sheet);
    size_t table_len = table_of(coding, newer, sizeof newer);
    uint32_t number = scalgo_read(coding, newer, sizeof newer, table, table_len, in->message,
                                  in->message_len, visits, content, sheet, room, &verdict, &length);
    print_verdict(number, &verdict);
    print_numbers(&length, 1);
    print_bytes(sheet, sizeof sheet);
}

static void reads(const struct coded *in) {
    read_with(in->coding, in, 2, SCALGO_ALL_CONTENT, 12);
    read_with(in->coding, in, 2, SCALGO_ALL_CONTENT, 9);
    read_with(in->coding, in, 2, SCALGO_ALL_CONTENT, 8);
    read_with(in->coding, in, 1, SCALGO_ALL_CONTENT, 12);
}

/* The content is the root's fixed part and the text's two bytes: all of it, a byte less, and a byte
 * less than the fixed part. */
static void contents(const struct coded *in) {
    uint64_t fixed = in->message[in->length_at];
    uint64_t allowed[] = {fixed + 2, fixed + 1, fixed - 1};
    for (size_t i = 0; i < 3; i++) {
        judge_within(in->coding, newer, sizeof newer, in->message, in->message_len, 2, allowed[i]);
        read_with(in->coding, in, 2, allowed[i], 12);
    }
}

/* The sheet of the message, and a byte more. */
static const uint8_t sheet[] = {0x40, 0, 0xD0, 0, 0, 0, 0x26, 0x16, 0x20, 0};

static void write_by(uint32_t coding, const uint8_t *schema, size_t schema_len, const uint8_t *bytes,
                     size_t len, size_t room) {
    uint8_t written[43];
    uint64_t length = 99;
    memset(written, 0xEE, sizeof written);
    uint32_t number = scalgo_write(coding, schema, schema_len, bytes, len, written, room, &length);
    uint64_t numbers[2] = {number, length};
    print_numbers(numbers, 2);
    print_bytes(written, sizeof written);
}

static void write_with(uint32_t coding, const uint8_t *bytes, size_t len, size_t room) {
    write_by(coding, newer, sizeof newer, bytes, len, room);
}

static void writes(const struct coded *in) {
    write_with(in->coding, sheet, 9, 43);
    write_with(in->coding, sheet, 9, in->message_len);
    write_with(in->coding, sheet, 9, in->message_len - 1);
    write_with(in->coding, sheet, 10, 43);
    /* Both members absent, but the number may not be. */
    write_with(in->coding, sheet + 1, 1, 43);
}

/* A union in place is of both codings, one by its offset of the newer alone: there it has an offset
 * of 2. */
static void unions(const struct coded *in) {
    judge(in->coding, in_place, sizeof in_place, in->union_, in->union_len, 9);
    judge(in->coding, by_offset, sizeof by_offset, in->union_, in->union_len, 9);
}

/* The struct is member 1 of its table. */
static void members(const struct coded *in) {
    static const uint32_t path[] = {1, 0};
    judge(in->coding, structs, sizeof structs, in->struct_, in->struct_len, 9);
    field(in->coding, structs, sizeof structs, in->struct_, in->struct_len, path, 2);
}

/* The message with FF as the text's first byte: judged, with a byte less of content, as a field, read,
 * and with another end byte; and the same in a list and in a sheet. */
static void no_texts(const struct coded *in) {
    static const uint32_t path[] = {1};
    static const uint8_t no_text[] = {0x40, 0, 0xD0, 0, 0, 0, 0x2F, 0xF6, 0x20};
    struct coded bad = *in;
    uint8_t message[sizeof message_48], list[sizeof list_48];
    size_t len = in->message_len;
    memcpy(message, in->message, len);
    memcpy(list, in->list, in->list_len);
    message[len - 3] = 0xFF;
    list[in->list_len - 3] = 0xFF;
    bad.message = message;
    judge(in->coding, newer, sizeof newer, message, len, 2);
    judge_within(in->coding, newer, sizeof newer, message, len, 2, in->message[in->length_at] + 1u);
    field(in->coding, newer, sizeof newer, message, len, path, 1);
    read_with(in->coding, &bad, 2, SCALGO_ALL_CONTENT, 12);
    message[len - 1] = 1;
    judge(in->coding, newer, sizeof newer, message, len, 2);
    list_from(in->coding, texts, sizeof texts, list, in->list_len, 0, 1);
    write_with(in->coding, no_text, sizeof no_text, 43);
}

static void positions_with(uint32_t coding, const uint8_t *schema, size_t schema_len, size_t room) {
    uint8_t made[26];
    uint64_t length = 99;
    memset(made, 0xEE, sizeof made);
    uint32_t number = scalgo_positions(coding, schema, schema_len, made, room, &length);
    uint64_t numbers[2] = {number, length};
    print_numbers(numbers, 2);
    print_bytes(made, sizeof made);
}

/* The table with room to spare, just enough, a byte less and none; and with no room of a schema that
 * is not lawful. */
static void positions(const struct coded *in) {
    static const size_t rooms[] = {26, 24, 23, 0};
    for (size_t i = 0; i < 4; i++) {
        positions_with(in->coding, newer, sizeof newer, rooms[i]);
    }
    positions_with(in->coding, in->message, in->message_len, 0);
}

/* Every function with a table lent, a message of one byte and a path that is too long: which of their
 * refusals comes first. */
static void lend(uint32_t coding, const uint8_t *lent, size_t lent_len) {
    static const uint32_t path[97] = {0};
    static const uint8_t byte[] = {0};
    uint64_t n[4] = {99, 99, 99, 99}, part[3] = {99, 99, 99}, list[5] = {99, 99, 99, 99, 99};
    uint8_t no_room[1];
    uint64_t length = 99;
    scalgo_verdict verdict = {99, 99, 99, 99, 99};
    uint32_t number = scalgo_judge(coding, newer, sizeof newer, lent, lent_len, byte, 1, 2,
                                   SCALGO_ALL_CONTENT, &verdict);
    print_verdict(number, &verdict);
    n[0] = scalgo_field(coding, newer, sizeof newer, lent, lent_len, byte, 1, path, 97, &n[1], &n[2],
                        &n[3]);
    print_numbers(n, 4);
    part[0] = scalgo_text(coding, newer, sizeof newer, lent, lent_len, byte, 1, path, 97, &part[1],
                          &part[2]);
    print_numbers(part, 3);
    list[0] = scalgo_list(coding, newer, sizeof newer, lent, lent_len, byte, 1, path, 97, 0, list + 1, 4);
    print_numbers(list, 5);
    number = scalgo_read(coding, newer, sizeof newer, lent, lent_len, byte, 1, 2, SCALGO_ALL_CONTENT,
                         no_room, 0, &verdict, &length);
    print_verdict(number, &verdict);
    print_numbers(&length, 1);
}

/* The schema's own table; then one with a bit changed, a byte longer, a byte shorter, none, and the
 * other coding's. */
static void lent_tables(const struct coded *in) {
    uint32_t other = in->coding == SCALGO_CODING_48 ? SCALGO_CODING_32 : SCALGO_CODING_48;
    size_t len = table_of(in->coding, newer, sizeof newer);
    lend(in->coding, table, len);
    table[len - 1] ^= 1;
    lend(in->coding, table, len);
    table[len - 1] ^= 1;
    lend(in->coding, table, len + 1);
    lend(in->coding, table, len - 1);
    lend(in->coding, table, 0);
    lend(in->coding, table, table_of(other, newer, sizeof newer));
}

/* Under a number that is no coding's no schema is lawful. */
static void no_coding(uint32_t coding) {
    static const uint32_t path[] = {1};
    const struct coded *in = &codings[0];
    positions_with(coding, newer, sizeof newer, 26);
    judge(coding, newer, sizeof newer, in->message, in->message_len, 2);
    field(coding, newer, sizeof newer, in->message, in->message_len, path, 1);
    list_from(coding, texts, sizeof texts, in->list, in->list_len, 0, 2);
    read_with(coding, in, 2, SCALGO_ALL_CONTENT, 12);
    write_with(coding, sheet, 9, 43);
}

static void clear(const uint8_t *schema, size_t schema_len, size_t room) {
    uint8_t cleared[17];
    uint64_t length = 99;
    memset(cleared, 0xEE, sizeof cleared);
    uint32_t number = scalgo_clear_unions(schema, schema_len, cleared, room, &length);
    uint64_t numbers[2] = {number, length};
    print_numbers(numbers, 2);
    print_bytes(cleared, sizeof cleared);
}

/* A schema cleared, without room, and one that is not lawful; one without unions in place; and the
 * union's sheet written by its own schema, by the cleared one, and in 32 bits, then with the union
 * absent. */
static void moving(void) {
    static const uint8_t of_union[] = {0x40, 0, 0x40, 0, 0, 0, 0x98, 0x58, 0x80};
    clear(in_place, sizeof in_place, 17);
    clear(in_place, sizeof in_place, 15);
    clear(in_place, sizeof in_place, 14);
    clear(in_place, sizeof in_place - 1, 17);
    clear(by_offset, sizeof by_offset, 17);
    write_by(SCALGO_CODING_48, in_place, sizeof in_place, of_union, sizeof of_union, 43);
    write_by(SCALGO_CODING_48, by_offset, sizeof by_offset, of_union, sizeof of_union, 43);
    write_by(SCALGO_CODING_32, in_place, sizeof in_place, of_union, sizeof of_union, 43);
    write_by(SCALGO_CODING_48, in_place, sizeof in_place, sheet + 1, 1, 43);
}

int main(void) {
    for (size_t i = 0; i < 2; i++) {
        judges(&codings[i]);
        fields(&codings[i]);
        lists(&codings[i]);
        reads(&codings[i]);
        contents(&codings[i]);
        writes(&codings[i]);
        unions(&codings[i]);
        members(&codings[i]);
        no_texts(&codings[i]);
        positions(&codings[i]);
        lent_tables(&codings[i]);
    }
    no_coding(40);
    moving();
    return 0;
}
