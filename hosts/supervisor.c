#define _GNU_SOURCE
#include "supervisor.h"
#include "loop.h"

#include <errno.h>
#include <grp.h>
#include <pwd.h>
#include <signal.h>
#include <string.h>
#include <sys/mman.h>
#include <sys/prctl.h>
#include <sys/resource.h>
#include <sys/wait.h>
#include <unistd.h>

enum { SPARE_FILES = 64 }; /* descriptors that are no connection's */

struct server server = {.log = -1};
static sigset_t signals;

/* ---- The start ---- */

void *share(size_t size) {
    void *shared = mmap(NULL, size, PROT_READ | PROT_WRITE, MAP_SHARED | MAP_ANONYMOUS, -1, 0);
    if (shared == MAP_FAILED)
        DIE("no memory: %s", strerror(errno));
    return shared;
}

/* Has room for two descriptors of each connection, or at least for one. */
static void raise_limit(struct hosting *hosting) {
    uint64_t share_of_each = (hosting->connections + hosting->workers - 1) / hosting->workers;
    uint64_t wanted = 2 * share_of_each + SPARE_FILES;
    struct rlimit limit;
    if (getrlimit(RLIMIT_NOFILE, &limit))
        DIE("getrlimit: %s", strerror(errno));
    if (limit.rlim_max < wanted)
        setrlimit(RLIMIT_NOFILE, &(struct rlimit){wanted, wanted}); /* only root may */
    if (getrlimit(RLIMIT_NOFILE, &limit))
        DIE("getrlimit: %s", strerror(errno));
    limit.rlim_cur = limit.rlim_max;
    if (setrlimit(RLIMIT_NOFILE, &limit))
        DIE("setrlimit: %s", strerror(errno));
    uint64_t most = limit.rlim_cur < 2 * SPARE_FILES ? 1 : (limit.rlim_cur - SPARE_FILES) * 3 / 4;
    if (share_of_each > most) {
        hosting->connections = most * hosting->workers;
        complain("at most %llu connections, by the limit of open files", (unsigned long long)hosting->connections);
    }
}

void begin_server(struct hosting *hosting) {
    static const int taken[] = {SIGTERM, SIGINT, SIGHUP, SIGCHLD};
    sigemptyset(&signals);
    for (size_t i = 0; i < sizeof taken / sizeof *taken; i++)
        sigaddset(&signals, taken[i]);
    if (sigprocmask(SIG_BLOCK, &signals, NULL))
        DIE("sigprocmask: %s", strerror(errno));
    set_handler(SIGPIPE, SIG_IGN); /* sendfile has no MSG_NOSIGNAL */
    set_handler(SIGCHLD, SIG_DFL); /* its parent may ignore it */
    server.hosting = hosting;
    server.child_count = hosting->workers * GENERATIONS;
    server.counts = share(sizeof *server.counts * COUNT_SLOTS * server.child_count);
    fill_randomly(&server.slot_keys, sizeof server.slot_keys);
    raise_limit(hosting);
}

static void drop_privileges(void) {
    const struct hosting *hosting = server.hosting;
    if (hosting->user) {
        struct passwd *user = getpwnam(hosting->user);
        struct group *group = hosting->group ? getgrnam(hosting->group) : NULL;
        if (!user || (hosting->group && !group))
            DIE("there is no user '%s', or no group '%s'", hosting->user, hosting->group ? hosting->group : "");
        gid_t id = group ? group->gr_gid : user->pw_gid;
        if (initgroups(hosting->user, id) || setgid(id) || setuid(user->pw_uid))
            DIE("the user can't be changed: %s", strerror(errno));
        if (user->pw_uid && !setuid(0))
            DIE("the privileges weren't dropped");
    }
    if (prctl(PR_SET_NO_NEW_PRIVS, 1, 0, 0, 0))
        DIE("prctl: %s", strerror(errno));
}

void listen_and_drop_privileges(void) {
    server.listener_count = listen_at_all(server.listeners, server.hosting);
    drop_privileges();
}

void replace_log(int log) {
    if (server.log > STDOUT_FILENO)
        close_descriptor(server.log);
    server.log = log;
}

/* ---- The workers ---- */

static bool start_worker(size_t place) {
    size_t child = 0;
    while (server.children[child].process) /* there is room, as long as each place has one that isn't old */
        child++;
    pid_t process = fork();
    if (process < 0) {
        complain("fork: %s", strerror(errno));
        return false;
    }
    if (process == 0) {
        run_worker(place, child);
        exit(EXIT_SUCCESS);
    }
    server.children[child] = (struct child){process, place, false};
    return true;
}

static bool has_worker(size_t place) {
    for (size_t i = 0; i < server.child_count; i++)
        if (server.children[i].process && !server.children[i].is_old && server.children[i].place == place)
            return true;
    return false;
}

/* Starts the workers that are missing. Returns whether all are there. */
static bool start_workers(void) {
    bool are_all = true;
    for (size_t place = 0; place < server.hosting->workers; place++)
        are_all &= has_worker(place) || start_worker(place);
    return are_all;
}

static void tell_children(int signal) {
    for (size_t i = 0; i < server.child_count; i++)
        if (server.children[i].process && (signal != SIGHUP || server.children[i].is_old) &&
            kill(server.children[i].process, signal))
            complain("kill: %s", strerror(errno));
}

/* Notes the workers that have ended. What they counted counts no more. */
static size_t reap(void) {
    int status;
    pid_t process;
    size_t left = 0;
    while ((process = waitpid(-1, &status, WNOHANG)) > 0) {
        if (WIFSIGNALED(status))
            complain("a worker ended by signal %d", WTERMSIG(status));
        for (size_t i = 0; i < server.child_count; i++) {
            if (server.children[i].process != process)
                continue;
            server.children[i].process = 0;
            for (size_t slot = 0; status != 0 && slot < COUNT_SLOTS; slot++)
                atomic_store(count_at(slot, i), 0);
        }
    }
    for (size_t i = 0; i < server.child_count; i++)
        left += server.children[i].process != 0;
    return left;
}

/* Opens all anew, for new workers. The old ones end once their responses are sent. */
static void reload(void) {
    if (reap() + server.hosting->workers > server.child_count) {
        complain("too many workers of former reloads still send responses");
        return;
    }
    if (!open_all())
        return;
    for (size_t i = 0; i < server.child_count; i++)
        server.children[i].is_old = true;
    if (start_workers())
        complain("reloaded");
    tell_children(SIGHUP);
}

/* Ends the workers once their responses are sent, or their time is over. */
static void stop(void) {
    uint64_t now = milliseconds(), end = now + server.hosting->stop_time * 1000 + 5 * AGAIN, close_at = now + GRACE;
    for (size_t i = 0; i < server.listener_count; i++)
        refuse_new(&server.listeners[i]);
    tell_children(SIGTERM);
    while (reap() > 0) {
        int signal = sigtimedwait(&signals, NULL, &(struct timespec){.tv_nsec = 100000000});
        now = milliseconds();
        if (now >= close_at && server.listener_count > 0) {
            for (size_t i = 0; i < server.listener_count; i++)
                for (size_t j = 0; j < server.listeners[i].count; j++)
                    close_descriptor(server.listeners[i].sockets[j]);
            server.listener_count = 0;
        }
        if (signal == SIGTERM || signal == SIGINT || now >= end)
            tell_children(SIGKILL);
    }
}

void supervise(void) {
    bool are_all = start_workers();
    for (;;) {
        int signal = sigtimedwait(&signals, NULL, are_all ? NULL : &(struct timespec){.tv_sec = 1});
        switch (signal) {
        case SIGTERM:
        case SIGINT: stop(); return;
        case SIGHUP: reload(); break;
        case SIGCHLD: reap(); break;
        default: /* a second has passed */
            are_all = start_workers();
            continue;
        }
        are_all = false;
    }
}
