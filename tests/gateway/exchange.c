/* A gateway with two networks, and a player on each, whose packets cross it: check PROGRAM. It wants nothing but a C compiler, and a folder
 * where it may write: it comes with the gateway's sources. The last line is 'N passed, M failed'. */
#include <signal.h>
#include <stdbool.h>
#include <stdint.h>
#include <stdio.h>
#include <stdlib.h>
#include <string.h>
#include <arpa/inet.h>
#include <netinet/in.h>
#include <sys/socket.h>
#include <sys/time.h>
#include <sys/types.h>
#include <sys/wait.h>
#include <unistd.h>

/* Seconds until all is taken for lost, milliseconds until something is said again, and how often. */
enum { LIMIT = 60, AGAIN = 500, TIMES = 40 };

/* A packet's header, and where its parts are; the sockets of the tunnel and of a game. */
enum { HEADER = 30, ROOM = 2048, AT_HOPS = 4, AT_TYPE = 5, AT_TO = 6, AT_FROM = 18, PLACE = 12, NETWORK = 4, NODE = 6, TUNNEL = 2, GAME = 0x4545 };

enum { NETWORKS = 2 };
static const char CONFIGURATION[] = "network 10 1 1424 dosbox 127.0.0.1:0\nnetwork 20 1 1424 dosbox 127.0.0.1:0\n";

/* The gateway: its process, what it says, and the port of each network. */
static pid_t process;
static FILE *said;
static unsigned ports[NETWORKS];

static int passed, failed;

static void tell(const char *what, bool is_well)
{
    printf("%s%s\n", is_well ? "ok      " : "FAILED  ", what);
    fflush(stdout);
    *(is_well ? &passed : &failed) += 1;
}

static void kill_it(int number)
{
    static const char TOLD[] = "FAILED  a minute is over\n";
    (void)number;
    (void)!write(STDOUT_FILENO, TOLD, sizeof TOLD - 1);
    if (process > 0)
        kill(process, SIGKILL);
    _exit(EXIT_FAILURE);
}

/* ---- The gateway ---- */

/* Runs the program with a file, which it reads before it says anything. */
static bool run(const char *program, const char *configuration)
{
    int ends[2];
    if (pipe(ends) != 0 || (process = fork()) < 0)
        return false;
    if (process == 0) {
        dup2(ends[1], STDOUT_FILENO);
        close(ends[0]);
        close(ends[1]);
        execl(program, program, configuration, (char *)NULL);
        _exit(EXIT_FAILURE);
    }
    close(ends[1]);
    said = fdopen(ends[0], "r");
    return said != NULL;
}

/* Learns of a line which port a network has. */
static void learn(const char *line)
{
    unsigned network, port;
    const char *told = strstr(line, "network ");
    if (told != NULL && sscanf(told, "network %x on dosbox 127.0.0.1:%u", &network, &port) == 2 && network / 0x10 - 1 < NETWORKS)
        ports[network / 0x10 - 1] = port;
}

static bool has_started(void)
{
    char line[ROOM];
    while ((ports[0] == 0 || ports[1] == 0) && fgets(line, sizeof line, said) != NULL)
        learn(line);
    return ports[0] != 0 && ports[1] != 0;
}

/* Starts it with two networks. */
static bool starts(const char *program)
{
    char name[] = "check.XXXXXX";
    int fd = mkstemp(name);
    ssize_t length = sizeof CONFIGURATION - 1;
    bool is_well = fd >= 0 && write(fd, CONFIGURATION, (size_t)length) == length && run(program, name) && has_started();
    if (fd >= 0) {
        close(fd);
        unlink(name);
    }
    return is_well;
}

/* Tells it to end, and reads what it says until then. */
static bool ends_well(void)
{
    char line[ROOM];
    int status;
    kill(process, SIGTERM);
    while (fgets(line, sizeof line, said) != NULL)
        ;
    return waitpid(process, &status, 0) == process && WIFEXITED(status) && WEXITSTATUS(status) == 0;
}

/* ---- Players ---- */

typedef struct player {
    int udp;
    uint8_t place[NETWORK + NODE]; /* its network and its node, as the gateway told them */
} player;

/* A packet between two places, with socket numbers behind them. Returns its length. */
static size_t write_packet(uint8_t *it, const uint8_t *to, const uint8_t *from, unsigned socket_number, const char *data)
{
    size_t length = HEADER + strlen(data);
    memset(it, 0, HEADER);
    it[0] = it[1] = 0xFF;
    it[2] = (uint8_t)(length >> 8);
    it[3] = (uint8_t)length;
    it[AT_TYPE] = socket_number == TUNNEL ? 0 : 4;
    memcpy(it + AT_TO, to, NETWORK + NODE);
    memcpy(it + AT_FROM, from, NETWORK + NODE);
    it[AT_TO + PLACE - 2] = it[AT_FROM + PLACE - 2] = (uint8_t)(socket_number >> 8);
    it[AT_TO + PLACE - 1] = it[AT_FROM + PLACE - 1] = (uint8_t)socket_number;
    memcpy(it + HEADER, data, strlen(data));
    return length;
}

/* A socket that speaks with one port of this machine, and waits a while for an answer. */
static bool opens(player *it, unsigned port)
{
    struct timeval patience = {.tv_usec = AGAIN * 1000L};
    struct sockaddr_in at;
    memset(&at, 0, sizeof at);
    at.sin_family = AF_INET;
    at.sin_port = htons((uint16_t)port);
    at.sin_addr.s_addr = htonl(INADDR_LOOPBACK);
    memset(it, 0, sizeof *it);
    it->udp = socket(AF_INET, SOCK_DGRAM, 0);
    return it->udp >= 0 && setsockopt(it->udp, SOL_SOCKET, SO_RCVTIMEO, &patience, sizeof patience) == 0 &&
           connect(it->udp, (const struct sockaddr *)&at, sizeof at) == 0;
}

/* Whether what came answers a registration: for one node, at the tunnel's socket. */
static bool is_answer(const uint8_t *bytes, ssize_t length)
{
    return length == HEADER && bytes[AT_TO + PLACE - 2] == 0 && bytes[AT_TO + PLACE - 1] == TUNNEL && bytes[AT_TO + NETWORK] != 0xFF;
}

/* Registers, and hears its place. */
static bool is_told_its_place(player *it)
{
    static const uint8_t NOWHERE[NETWORK + NODE];
    uint8_t bytes[ROOM];
    ssize_t length;
    for (int tries = 0; tries < TIMES; tries++) {
        (void)!send(it->udp, bytes, write_packet(bytes, NOWHERE, NOWHERE, TUNNEL, ""), 0);
        while ((length = recv(it->udp, bytes, sizeof bytes, 0)) >= 0 && !is_answer(bytes, length))
            ;
        if (length >= 0) {
            memcpy(it->place, bytes + AT_TO, sizeof it->place);
            return true;
        }
    }
    return false;
}

/* Whether what came is what somebody has said, across some routers. */
static bool is_of(const player *speaker, const char *data, uint8_t hops, const uint8_t *bytes, ssize_t length)
{
    return length == (ssize_t)(HEADER + strlen(data)) && bytes[AT_HOPS] == hops && memcmp(bytes + AT_FROM, speaker->place, NETWORK + NODE) == 0 &&
           memcmp(bytes + HEADER, data, strlen(data)) == 0;
}

/* Says something until the other hears it. */
static bool reaches(const player *it, const player *other, const char *data, uint8_t hops)
{
    uint8_t going[ROOM], bytes[ROOM];
    size_t count = write_packet(going, other->place, it->place, GAME, data);
    ssize_t length;
    for (int tries = 0; tries < TIMES; tries++) {
        (void)!send(it->udp, going, count, 0);
        while ((length = recv(other->udp, bytes, sizeof bytes, 0)) >= 0 && !is_of(it, data, hops, bytes, length))
            ;
        if (length >= 0)
            return true;
    }
    return false;
}

/* (who says something is a client from then on: so each says something to itself first) */
static void play(player *anna, player *ben)
{
    bool are_in = opens(anna, ports[0]) && opens(ben, ports[1]) && is_told_its_place(anna) && is_told_its_place(ben) &&
                  reaches(anna, anna, "I am here", 0) && reaches(ben, ben, "So am I", 0);
    tell("two players come in, each on a network", are_in);
    if (!are_in)
        return;
    tell("what one says comes to the other, through the router", reaches(anna, ben, "who plays?", 1));
    tell("and back", reaches(ben, anna, "I do", 1));
}

int main(int count, char **words)
{
    player anna, ben;
    if (count != 2) {
        fprintf(stderr, "check PROGRAM\n");
        return EXIT_FAILURE;
    }
    signal(SIGALRM, kill_it);
    alarm(LIMIT);
    bool is_well = starts(words[1]);
    tell("the gateway starts with two networks", is_well);
    if (is_well) {
        play(&anna, &ben);
        tell("it ends when it is told to", ends_well());
    } else if (process > 0) {
        kill(process, SIGKILL);
    }
    printf("%d passed, %d failed\n", passed, failed);
    return failed == 0 ? EXIT_SUCCESS : EXIT_FAILURE;
}
