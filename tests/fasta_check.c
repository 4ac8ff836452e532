/* The judge: what mirror_fasta must answer follows from the second reading and the size of the output buffer alone. */
#include "fasta_check.h"
#include "fasta_texts.h"
#include "guard.h"
#include "mirror.h"
#include <ctype.h>
#include <stdio.h>
#include <stdlib.h>
#include <string.h>

unsigned long fasta_calls, fasta_seen[256];

static void show(const uint8_t *text, size_t length)
{
    for (size_t i = 0; i < length && i < 200; i++)
        if (isgraph(text[i]) && text[i] != '\\') putchar(text[i]);
        else printf("\\%03o", text[i]);
    printf("%s (%zu bytes)\n", length > 200 ? " .." : "", length);
}

static void fail(const char *what, const uint8_t *text, size_t length, size_t room, uint64_t wanted, uint64_t got)
{
    printf("%s: wanted %llx, got %llx, with an output of %zu bytes, for ", what, (unsigned long long)wanted, (unsigned long long)got, room);
    show(text, length);
    exit(1);
}

/* what the output holds before a call: no letters */
static uint8_t held(size_t i)
{
    return (uint8_t)(128 + i % 101);
}

static void one_call(const uint8_t *text, size_t length, const second_reading *r, size_t room)
{
    uint8_t *in = guard_room(0, length), *out = guard_room(1, room);
    uint64_t good = (uint64_t)r->identifier << 32 | (uint64_t)r->count << 48;
    uint64_t wanted = r->number != 0 ? r->number : room < r->count ? MIRROR_NO_ROOM : good;
    size_t written = wanted == good ? r->count : 0;

    memcpy(in, text, length);
    for (size_t i = 0; i < room; i++) out[i] = held(i);
    uint64_t got = mirror_fasta(in, length, out, room);
    fasta_calls++;
    fasta_seen[wanted & 0xff]++;
    if (got != wanted) fail("answer", text, length, room, wanted, got);
    for (size_t i = 0; i < room; i++) {
        uint8_t byte = i < written ? r->letters[i] : held(i);
        if (out[i] != byte) fail(i < written ? "letter" : "a byte that must stay", text, length, room, byte, out[i]);
    }
    if (memcmp(in, text, length) != 0) fail("the text was changed", text, length, room, 0, 0);
}

void fasta_check(const uint8_t *text, size_t length)
{
    static uint8_t capitals[MOST_TEXT];
    second_reading r = second_read(text, length);
    fasta_capitals(capitals, text, length);
    int small = memcmp(capitals, text, length) != 0;
    for (int place = GUARD_AFTER; place <= GUARD_BEFORE; place++) {
        guard_at((guard_place)place);
        one_call(text, length, &r, 0);
        if (r.count > 1) one_call(text, length, &r, r.count - 1);
        if (r.count > 0) one_call(text, length, &r, r.count);
        one_call(text, length, &r, r.count + 1);
        if (small) one_call(capitals, length, &r, r.count);
    }
}

size_t fasta_key_text(const fasta_key *key, uint8_t *text)
{
    memcpy(text, key->before, key->before_length);
    memset(text + key->before_length, 'A', key->filled);
    memcpy(text + key->before_length + key->filled, key->after, key->after_length);
    return key->before_length + key->filled + key->after_length;
}

void fasta_check_key(const fasta_key *key)
{
    static uint8_t text[MOST_TEXT];
    size_t length = fasta_key_text(key, text);
    second_reading r = second_read(text, length);
    if (r.number != key->number) fail(key->name, text, length, 0, key->number, r.number);
    if (r.number == 0) {
        if (r.identifier != key->identifier) fail(key->name, text, length, 0, key->identifier, r.identifier);
        if (r.count != key->count) fail(key->name, text, length, 0, key->count, r.count);
        for (size_t i = 0; i < r.count; i++) {
            unsigned char letter = (unsigned char)(key->letters ? key->letters[i] : 'A');
            if (r.letters[i] != letter) fail(key->name, text, length, 0, letter, r.letters[i]);
        }
    }
    fasta_check(text, length);
}
