#include "systems/system.h"

#include <errno.h>
#include <fcntl.h>
#include <string.h>
#include <sys/resource.h>
#include <sys/stat.h>
#include <unistd.h>

FILE *file_open(const char *name, const char *how)
{
    return fopen(name, how);
}

FILE *file_open_at_once(const char *name)
{
    int opened = open(name, O_RDONLY | O_NONBLOCK | O_CLOEXEC);
    FILE *file = opened >= 0 ? fdopen(opened, "rb") : NULL;
    int fault = errno;
    if (opened >= 0 && file == NULL)
        close(opened);
    errno = fault;
    return file;
}

/* (whose file it isn't can't make it his own: he may read it by its group, as a service does) */
bool file_is_secret(FILE *file)
{
    struct stat about;
    if (fstat(fileno(file), &about) != 0)
        return false;
    mode_t others = about.st_uid == geteuid() ? S_IRWXG | S_IRWXO : S_IRWXO;
    return (about.st_mode & others) == 0;
}

bool file_is_fifo(const char *name)
{
    struct stat about;
    return stat(name, &about) == 0 && S_ISFIFO(about.st_mode) && access(name, W_OK) == 0;
}

FILE *text_open(char **text, size_t *length)
{
    return open_memstream(text, length);
}

void text_close(FILE *file, char **text, size_t *length)
{
    (void)text;
    (void)length;
    fclose(file);
}

const char *fault_words(void)
{
    return strerror(errno);
}

/* Opens the first three files where they are closed: a link would take their numbers, and get what is said and complained of. */
static void open_first_files(void)
{
    int opened;
    do
        opened = open("/dev/null", O_RDWR);
    while (opened >= 0 && opened <= STDERR_FILENO);
    if (opened > STDERR_FILENO)
        close(opened);
}

/* As many files may be open as the system lets a program have: what others pass by mistake or spite takes some for a while. */
static void raise_files(void)
{
    struct rlimit most;
    if (getrlimit(RLIMIT_NOFILE, &most) != 0)
        return;
    most.rlim_cur = most.rlim_max;
    (void)setrlimit(RLIMIT_NOFILE, &most);
}

int main(int count, char **words)
{
    open_first_files();
    raise_files();
    setvbuf(stdout, NULL, _IOLBF, BUFSIZ);
    return gateway_main(count, words);
}
