// Writes the lines of the input in the order of their bytes. A last line without its end gets one. What it needs lies on
// the heap: first the text, then the places of the lines.
#include "romain.h"

typedef struct { const uint8_t *bytes; size_t length; } Line;

// The text as it grew on the heap.
static uint8_t *text;
static size_t text_length;

// The whole input; 0 where the heap can't hold it.
static int read_text(void)
{
    text = brk(NULL);
    for (;;) {
        uint8_t *wish = text + text_length + ROMAIN_PIECE;
        if (brk(wish) != wish)
            return 0;
        int32_t got = read(0, text + text_length, ROMAIN_PIECE);
        if (got <= 0)
            return got == 0;
        text_length += (size_t)got;
    }
}

// Whether one line comes before another: by their first bytes that differ, else the shorter one.
static int comes_before(Line a, Line b)
{
    size_t shorter = a.length < b.length ? a.length : b.length;
    int order = memcmp(a.bytes, b.bytes, shorter);
    return order != 0 ? order < 0 : a.length < b.length;
}

// Lets the line at `place` sink among the first `count`, in which each line is to be no less than the two below it.
static void sink(Line *lines, size_t place, size_t count)
{
    Line sinking = lines[place];
    for (size_t below; (below = 2 * place + 1) < count; place = below) {
        if (below + 1 < count && comes_before(lines[below], lines[below + 1]))
            below++;
        if (!comes_before(sinking, lines[below]))
            break;
        lines[place] = lines[below];
    }
    lines[place] = sinking;
}

static void sort(Line *lines, size_t count)
{
    for (size_t place = count / 2; place > 0; place--)
        sink(lines, place - 1, count);
    for (size_t last = count; last > 1; last--) {
        Line largest = lines[0];
        lines[0] = lines[last - 1];
        lines[last - 1] = largest;
        sink(lines, 0, last - 1);
    }
}

int main(void)
{
    if (!read_text())
        return 1;
    size_t count = 0;
    for (size_t i = 0; i < text_length; i++)
        count += text[i] == '\n' || i + 1 == text_length;
    Line *lines = (Line *)(((uintptr_t)text + text_length + 3) & ~(uintptr_t)3);
    if (brk(lines + count) != lines + count)
        return 2;

    size_t start = 0, found = 0;
    for (size_t i = 0; i < text_length; i++)
        if (text[i] == '\n' || i + 1 == text_length) {
            lines[found++] = (Line){ text + start, i + (text[i] != '\n') - start };
            start = i + 1;
        }
    sort(lines, count);
    for (size_t i = 0; i < count; i++)
        if (write_all(lines[i].bytes, lines[i].length) != 0 || write_all("\n", 1) != 0)
            return 3;
    return 0;
}
