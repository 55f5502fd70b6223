// A small interpreter. A program works on a tape of cells of one byte, all 0 at first, and on a place on it:
//
//   > <   the next place, the one before        + -   one more, one less, modulo 256
//   .     writes the cell as a byte             ,     reads a byte into it, 0 at the input's end
//   [ ]   what is between them is repeated while the cell at the place isn't 0
//
// Other characters mean nothing. The input is the program up to the first `!`, and then the program's own input.
// The status is 0; 1 where brackets don't match; 2 where a place is off the tape; 3 where the text is too long.
#include "romain.h"

enum { LONGEST = 16384, CELLS = 30000, PENDING = 512 };

static uint8_t text[LONGEST];
static int32_t partner[LONGEST]; // of a bracket: where the one that matches it stands
static uint8_t cells[CELLS];
static uint8_t pending[PENDING]; // output that isn't written yet
static size_t pending_length;

// Finds each bracket's partner: whether all have one.
static int match_brackets(int32_t length)
{
    static int32_t open[LONGEST];
    int32_t depth = 0;
    for (int32_t i = 0; i < length; i++) {
        if (text[i] == '[')
            open[depth++] = i;
        if (text[i] == ']') {
            if (depth == 0)
                return 0;
            partner[i] = open[--depth];
            partner[partner[i]] = i;
        }
    }
    return depth == 0;
}

static void write_pending(void)
{
    write_all(pending, pending_length);
    pending_length = 0;
}

static void put(uint8_t byte)
{
    pending[pending_length++] = byte;
    if (pending_length == PENDING)
        write_pending();
}

// Runs the program, whose own input is the text from `taken` to `end`.
static int run(int32_t length, int32_t taken, int32_t end)
{
    int32_t place = 0;
    for (int32_t i = 0; i < length; i++) {
        switch (text[i]) {
        case '>':
            if (++place == CELLS)
                return 2;
            break;
        case '<':
            if (place-- == 0)
                return 2;
            break;
        case '+':
            cells[place]++;
            break;
        case '-':
            cells[place]--;
            break;
        case '.':
            put(cells[place]);
            break;
        case ',':
            cells[place] = taken < end ? text[taken++] : 0;
            break;
        case '[':
            if (cells[place] == 0)
                i = partner[i];
            break;
        case ']':
            if (cells[place] != 0)
                i = partner[i];
            break;
        }
    }
    return 0;
}

int main(void)
{
    int32_t end = read_full(text, LONGEST);
    uint8_t beyond;
    if (end < 0 || read(0, &beyond, 1) != 0)
        return 3;
    int32_t length = 0;
    while (length < end && text[length] != '!')
        length++;
    if (!match_brackets(length))
        return 1;
    int status = run(length, length < end ? length + 1 : end, end);
    write_pending();
    return status;
}
