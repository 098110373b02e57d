/* What the program asks of the system, by calls for files that every system has by one name or another, and where the program begins. */
#ifdef _WIN32
#define SYSTEM_OPEN(name) _open(name, _O_RDONLY | _O_BINARY)
#define SYSTEM_READ(file, bytes, count) _read(file, bytes, (unsigned)(count))
#define SYSTEM_WRITE(file, bytes, count) _write(file, bytes, (unsigned)(count))
#define SYSTEM_CLOSE(file) _close(file)
/* Standard input and output move bytes as they are. */
#define SYSTEM_BEGIN() ((void)_setmode(0, _O_BINARY), (void)_setmode(1, _O_BINARY), (void)_setmode(2, _O_BINARY))
#else
#define SYSTEM_OPEN(name) open(name, O_RDONLY)
#define SYSTEM_READ(file, bytes, count) read(file, bytes, count)
#define SYSTEM_WRITE(file, bytes, count) write(file, bytes, count)
#define SYSTEM_CLOSE(file) close(file)
/* Where nobody reads any longer, a write fails. */
#define SYSTEM_BEGIN() ((void)signal(SIGPIPE, SIG_IGN))
#endif

/* The program knows faults by Linux' numbers: a call that was interrupted has its own here, and any other that of a device. */
enum { LINUX_EINTR = 4, LINUX_EIO = 5, MOST_AT_ONCE = 1 << 30 };

static size_t argument_count;
static char **arguments;
static uint32_t fault;

/* What a call returned; where it failed, the fault is kept. */
static int64_t kept(int64_t returned)
{
    if (returned < 0)
        fault = errno == EINTR ? LINUX_EINTR : LINUX_EIO;
    return returned;
}

static size_t at_once(uint64_t count)
{
    return count < MOST_AT_ONCE ? (size_t)count : MOST_AT_ONCE;
}

/* (the program only reads what it opens) */
static uint32_t ipxri_open(uint64_t name, uint32_t flags, uint64_t rest)
{
    (void)flags;
    (void)rest;
    return (uint32_t)kept(SYSTEM_OPEN((const char *)ipxri_at(name)));
}

static uint32_t ipxri_close(uint32_t file)
{
    return (uint32_t)kept(SYSTEM_CLOSE((int)file));
}

static uint64_t ipxri_read(uint32_t file, uint64_t bytes, uint64_t count)
{
    return (uint64_t)kept(SYSTEM_READ((int)file, ipxri_at(bytes), at_once(count)));
}

static uint64_t ipxri_write(uint32_t file, uint64_t bytes, uint64_t count)
{
    return (uint64_t)kept(SYSTEM_WRITE((int)file, ipxri_at(bytes), at_once(count)));
}

/* Copies an argument. Returns its length; -1 if there is none of that number, -2 if it is longer than the room, which is then full. */
static uint64_t ipxri_rattle_arg(uint64_t number, uint64_t bytes, uint64_t room)
{
    size_t length;
    if (number >= argument_count)
        return ~(uint64_t)0;
    length = strlen(arguments[number]);
    memcpy(ipxri_at(bytes), arguments[number], length < room ? length : (size_t)room);
    return length <= room ? length : ~(uint64_t)1;
}

static uint32_t ipxri_rattle_errno(void)
{
    return fault;
}

static void ipxri_rattle_set_errno(uint32_t number)
{
    fault = number;
}

/* (what the program asks for is done before it begins) */
static uint64_t ipxri___sysv_signal(uint32_t number, uint64_t handler)
{
    (void)number;
    (void)handler;
    return 0;
}

static void ipxri_begin(void);
static uint32_t ipxri_c_main(uint32_t count, uint64_t texts);

int main(int count, char **texts)
{
    argument_count = (size_t)count;
    arguments = texts;
    SYSTEM_BEGIN();
    ipxri_begin();
    return (int)ipxri_c_main(0, 0);
}
