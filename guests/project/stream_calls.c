// A thread calls each function of streams, which take locks there: what comes of them is what comes of them on a host.
#include <pthread.h>
#include <stdarg.h>
#include <stdio.h>
#include <string.h>

static void print(const char *format, ...)
{
    va_list values;
    va_start(values, format);
    vprintf(format, values);
    va_end(values);
}

static int scan(FILE *stream, const char *format, ...)
{
    va_list places;
    va_start(places, format);
    int count = stream == stdin ? vscanf(format, places) : vfscanf(stream, format, places);
    va_end(places);
    return count;
}

static void tell(int value)
{
    printf("%d ", value);
}

static void write_in_each_way(void)
{
    putchar('a');
    putc('b', stdout);
    (putc)('c', stdout);
    fputc('d', stdout);
    fputs("e", stdout);
    puts("f");
    print("%s %d\n", "g", 1);
    tell(fprintf(stdout, "%s %d\n", "h", 22));
    tell((int)fwrite("ijklm", 2, 2, stdout));
    tell(fflush(stdout));
    tell(ferror(stdout) != 0);
}

// The input is 3 1 2 and a line's end.
static void read_in_each_way(void)
{
    int number = 0;
    char rest[8] = "";
    tell(ungetc(getchar(), stdin));
    tell(getc(stdin));
    tell(fgetc(stdin));
    tell(fscanf(stdin, "%d", &number));
    tell(number);
    tell(scan(stdin, "%d", &number));
    tell(number);
    tell(feof(stdin) != 0);
    puts(fgets(rest, sizeof rest, stdin));
    tell((getc)(stdin));
    tell(feof(stdin) != 0);
    clearerr(stdin);
    tell(feof(stdin) != 0);
    tell(getchar());
}

static void read_memory(void)
{
    static char text[] = "one two three";
    char word[16] = "";
    FILE *memory = fmemopen(text, strlen(text), "r");
    if (memory == NULL)
        return;
    setbuf(memory, NULL);
    tell(fseek(memory, 8, SEEK_SET));
    tell(scan(memory, "%s", word));
    puts(word);
    rewind(memory);
    tell((int)ftell(memory));
    tell((int)fread(word, 1, 3, memory));
    puts(word);
    tell((int)ftello(memory));
    tell(fseeko(memory, 1, SEEK_CUR));
    tell(fgetc(memory));
    tell(fclose(memory));
}

static void *call(void *nothing)
{
    write_in_each_way();
    read_in_each_way();
    read_memory();
    return nothing;
}

int main(void)
{
    pthread_t thread;
    return pthread_create(&thread, NULL, call, NULL) != 0 || pthread_join(thread, NULL) != 0;
}
