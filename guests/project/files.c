// With picolibc: there are no files, and each function that asks for one fails with an errno; the three streams are there.
#include <errno.h>
#include <fcntl.h>
#include <stdio.h>
#include <string.h>
#include <sys/stat.h>
#include <sys/time.h>
#include <time.h>
#include <unistd.h>

static struct stat about;
static struct timeval now;

// Whether it failed, and with this errno.
static int fails(const char *what, int is_failure, int error)
{
    int found = errno;
    errno = 0;
    if (is_failure && found == error)
        return 1;
    printf("%s: %s\n", what, is_failure ? strerror(found) : "didn't fail");
    return 0;
}

static int files_fail(void)
{
    return fails("fopen to read", fopen("name", "r") == NULL, ENOENT) & fails("fopen to write", fopen("name", "w") == NULL, EROFS) &
        fails("open", open("name", O_RDONLY) < 0, ENOENT) & fails("stat", stat("name", &about) < 0, ENOENT) &
        fails("unlink", unlink("name") < 0, ENOENT) & fails("remove", remove("name") < 0, ENOENT) &
        fails("rename", rename("name", "other") < 0, ENOENT) & fails("close", close(3) < 0, EBADF) &
        fails("fstat", fstat(3, &about) < 0, EBADF) & fails("read", read(1, &about, 1) < 0, EBADF) &
        fails("write", write(0, "", 1) < 0, EBADF) & fails("lseek of none", lseek(7, 0, SEEK_SET) < 0, EBADF);
}

static int streams_are_streams(void)
{
    return fails("lseek", lseek(0, 0, SEEK_SET) < 0, ESPIPE) & fails("isatty", !isatty(1), ENOTTY) &
        (fstat(0, &about) == 0 && S_ISFIFO(about.st_mode)) & (close(2) == 0);
}

static int there_is_no_time(void)
{
    return fails("gettimeofday", gettimeofday(&now, NULL) < 0, ENOSYS) & fails("time", time(NULL) == -1, ENOSYS) &
        fails("clock", clock() == (clock_t)-1, ENOSYS);
}

// Lines of the input through a stream that was opened by its descriptor.
static int copy_lines(void)
{
    char line[80];
    FILE *input = fdopen(0, "r");
    if (input == NULL)
        return 0;
    while (fgets(line, sizeof line, input) != NULL)
        fputs(line, stderr);
    return fclose(input) == 0;
}

int main(void)
{
    return files_fail() & streams_are_streams() & there_is_no_time() & copy_lines() ? 0 : 1;
}
