// Counts the words of the input: writes each, in the order in which they come first, behind how often it comes. Its table has
// 8 MiB, far more than the heap. It lies in memory that is asked for, of which those pages are backed that are touched.
#include "romain.h"

typedef struct entry {
    uint8_t *word; // NULL where the entry is free
    size_t length;
    uint32_t count;
    struct entry *next; // that of the word that came first after this one
} Entry;

enum { ENTRIES = 1 << 19, MOST_TEXT = 1 << 20 };

static Entry *table;

static void *memory(size_t length)
{
    return mmap(NULL, length, PROT_READ | PROT_WRITE, MAP_PRIVATE | MAP_ANONYMOUS, -1, 0);
}

static uint32_t hash(const uint8_t *word, size_t length)
{
    uint32_t value = 2166136261;
    for (size_t i = 0; i < length; i++)
        value = (value ^ word[i]) * 16777619;
    return value;
}

// The word's entry, or the free one where it belongs. There are more entries than a text can have words.
static Entry *find(const uint8_t *word, size_t length)
{
    uint32_t place = hash(word, length) % ENTRIES;
    while (table[place].word != NULL && (table[place].length != length || memcmp(table[place].word, word, length) != 0))
        place = (place + 1) % ENTRIES;
    return &table[place];
}

// Counts the words of a text, behind which is room for a byte more: the first entry.
static Entry *count(uint8_t *text, size_t length)
{
    Entry *first = NULL, **last = &first;
    for (size_t start = 0, end; start < length; start = end + 1) {
        for (end = start; end < length && text[end] > ' '; end++)
            continue;
        if (end == start)
            continue;
        Entry *entry = find(text + start, end - start);
        if (entry->word == NULL) {
            *entry = (Entry){ text + start, end - start, 0, NULL };
            *last = entry;
            last = &entry->next;
        }
        entry->count++;
    }
    return first;
}

// A number in decimal digits, a space, and the word on a line of its own. What parts it from the next word is written over.
static int print(const Entry *entry)
{
    uint8_t digits[11];
    size_t first = sizeof digits - 1;
    uint32_t number = entry->count;
    digits[first] = ' ';
    do {
        digits[--first] = (uint8_t)('0' + number % 10);
        number /= 10;
    } while (number != 0);
    entry->word[entry->length] = '\n';
    return write_all(digits + first, sizeof digits - first) != 0 || write_all(entry->word, entry->length + 1) != 0;
}

int main(void)
{
    table = memory(ENTRIES * sizeof(Entry));
    uint8_t *text = memory(MOST_TEXT + 1);
    if (table == MAP_FAILED || text == MAP_FAILED)
        return 1;
    int32_t length = read_full(text, MOST_TEXT);
    if (length < 0)
        return 2;
    for (const Entry *entry = count(text, (size_t)length); entry != NULL; entry = entry->next)
        if (print(entry))
            return 3;
    return 0;
}
