/* dlgen SECONDS SEED TASK..: SCHED_DEADLINE tasks to record, a process for each TASK. It ends with the worst status of them; 77
   where the kernel gives one no deadline, 78 where one was stuck.

   TASK is NAME,KEY=VALUE,.. in microseconds where nothing else is said (decimals are taken):
     q= runtime   p= period   d= deadline (as p)   r=1 with SCHED_FLAG_RECLAIM (0: without)   fl= more flags, 0x..
     st= en=        when it starts and ends, in ms (0, and the whole)
     w=LO-HI        the work of a job in % of q (20-80)
     s=LO-HI        the sleep after it in % of p (5-120);   per=1  sleeps to its next period instead
     y=K            after each K-th job it yields in place of the sleep
     b=K            after each K-th job eight short ones, of 3 % of q, with sleeps of 2 % of p: early wakes
     pi=K           each K-th job holds a mutex, with priority inheritance;   m=I  the I-th of four (0);   m2=I  and then that one too
     pis=US         and sleeps so long with it (1: 2 ms)
     hot=I          after each job it wakes the other task with this I, and waits for that one, at most a period
     fk=K           after each K-th job it forks a process that ends (SCHED_DEADLINE wants fl=0x1 for that)
     ch=MS:Q:D:P:R  at MS it changes its own parameters (up to 16 times); R: flags / 2 (1 RECLAIM, 2 DL_OVERRUN, 4 KEEP_POLICY,
                    8 KEEP_PARAMS); Q 0: out of the class, R: the policy (0 SCHED_OTHER, 1 SCHED_FIFO, 3 SCHED_BATCH, 5 SCHED_IDLE)
     xc=MS:Q:D:P:R  at MS its parent does, whether it runs or sleeps
     af=MS:MASK     at MS it keeps to the processors of MASK, 0x..;   xa=MS:MASK  its parent keeps it there
     kill=MS        its parent kills it
     dead=1         its parent does these things to it after its end too, while it is a zombie
     o=MS:MS        SCHED_OTHER between the two
     pin=CPU        keeps to CPU, from before it has a deadline;   apin=CPU  from after
     may=1          it goes on where the kernel refuses it
     fair=1         no deadline task but a fair one;   fifo=1  a SCHED_FIFO one
   A TASK named sys is none. At its moments the parent does
     wr=MS:FILE:TEXT  writes TEXT to FILE; @NAME in TEXT is the pid of that task      rd=MS:FILE  reads FILE      md=MS:DIR  makes DIR
   A TASK seed=N stands in place of SEED. A task that has not ended after its time, four periods and a second is killed; after as long
   again it is put out of the class, and "stuck: NAME" is said, or "throttled: NAME" where its next period is yet to come. */
#define _GNU_SOURCE
#include <errno.h>
#include <fcntl.h>
#include <pthread.h>
#include <sched.h>
#include <semaphore.h>
#include <signal.h>
#include <stdint.h>
#include <stdio.h>
#include <stdlib.h>
#include <string.h>
#include <sys/mman.h>
#include <sys/prctl.h>
#include <sys/stat.h>
#include <sys/syscall.h>
#include <sys/wait.h>
#include <time.h>
#include <unistd.h>

enum { DEADLINE = 6, RECLAIM = 1, MOST_CHANGES = 16, MOST_TASKS = 64, MOST_ACTIONS = 512, MUTEXES = 4, PAIRS = 8 };
enum kind { PARAMETERS, LEAVE, RETURN, AFFINITY, KILL, WRITE, READ, MAKE };

struct attributes {
    uint32_t size, policy;
    uint64_t flags;
    int32_t nice;
    uint32_t priority;
    uint64_t runtime, deadline, period;
};

/* Of a class that is no deadline one, runtime is 0 and flags is its number. */
struct parameters { uint64_t runtime, deadline, period; int flags; };
struct change { uint64_t at; enum kind kind; struct parameters to; unsigned long mask; };
struct action { pid_t pid; int order, dead; struct change change; const char *file, *text; };

struct task {
    char name[16];
    struct parameters own;
    unsigned long flags;
    double start, end;
    int work_low, work_high, sleep_low, sleep_high, periodic, yield, burst, may, hot, forks;
    int held, mutex, second, mutex_sleep, pin, pin_after, fair, fifo, dead;
    struct change inner[MOST_CHANGES];
    int inners;
};

static struct shared { pthread_mutex_t mutex[MUTEXES]; sem_t turn[PAIRS][2]; } *shared;
static struct action actions[MOST_ACTIONS];
static int count_of_actions, count_made;
static struct { char name[16]; pid_t pid; } made[MOST_TASKS];
static uint64_t seed, longest;
static sigset_t ended;

static uint64_t now(void)
{
    struct timespec t;
    clock_gettime(CLOCK_MONOTONIC, &t);
    return t.tv_sec * 1000000000ull + t.tv_nsec;
}

static void sleep_until(uint64_t moment)
{
    struct timespec t = { moment / 1000000000, moment % 1000000000 };
    while (clock_nanosleep(CLOCK_MONOTONIC, TIMER_ABSTIME, &t, 0) == EINTR)
        ;
}

static void sleep_for(uint64_t ns)
{
    struct timespec t = { ns / 1000000000, ns % 1000000000 };
    clock_nanosleep(CLOCK_MONOTONIC, 0, &t, 0);
}

/* Own CPU time, by the gaps of the clock: to read the CPU clock would be an event of each read. */
static void work(uint64_t ns)
{
    uint64_t done = 0, last = now();
    while (done < ns) {
        uint64_t t = now();
        if (t - last < 20000)
            done += t - last;
        last = t;
    }
}

static uint64_t any(int low, int high)
{
    seed ^= seed << 13;
    seed ^= seed >> 7;
    seed ^= seed << 17;
    return high > low ? low + seed % (high - low + 1) : (uint64_t)low;
}

static int keep_to(pid_t pid, unsigned long mask)
{
    cpu_set_t set;
    CPU_ZERO(&set);
    for (int cpu = 0; cpu < 64; cpu++)
        if (mask >> cpu & 1)
            CPU_SET(cpu, &set);
    return sched_setaffinity(pid, sizeof set, &set);
}

static int set_parameters(pid_t pid, const struct parameters *to, unsigned long more)
{
    struct attributes a = { .size = sizeof a, .policy = DEADLINE, .flags = (unsigned long)to->flags << 1 | more,
        .runtime = to->runtime, .deadline = to->deadline, .period = to->period };
    if (to->runtime == 0)
        a = (struct attributes){ .size = sizeof a, .policy = to->flags, .priority = to->flags == SCHED_FIFO ? 10 : 0 };
    if (syscall(SYS_sched_setattr, pid, &a, 0) == 0)
        return 0;
    fprintf(stderr, "dlgen: sched_setattr: %s\n", strerror(errno));
    return 77;
}

static void wrong(const char *word)
{
    fprintf(stderr, "dlgen: wrong word %s\n", word);
    exit(2);
}

static uint64_t ns_of(const char *us) { return atof(us) * 1000 + 0.5; }

static struct change change_of(enum kind kind, const char *value)
{
    struct change c = { .kind = kind };
    double ms = 0, q = 0, d = 0, p = 0;
    if (kind == PARAMETERS && sscanf(value, "%lf:%lf:%lf:%lf:%d", &ms, &q, &d, &p, &c.to.flags) != 5)
        wrong(value);
    if (kind == AFFINITY && sscanf(value, "%lf:%lx", &ms, &c.mask) != 2)
        wrong(value);
    if (kind != PARAMETERS && kind != AFFINITY && sscanf(value, "%lf", &ms) != 1)
        wrong(value);
    c.at = ms * 1000000;
    c.to.runtime = q * 1000 + 0.5;
    c.to.deadline = d * 1000 + 0.5;
    c.to.period = p * 1000 + 0.5;
    if (c.to.period > longest)
        longest = c.to.period;
    return c;
}

static void add_inner(struct task *t, enum kind kind, const char *value)
{
    if (t->inners == MOST_CHANGES)
        wrong(value);
    t->inner[t->inners++] = change_of(kind, value);
}

/* An action of the parent; the pid of its task is filled in when that is made. */
static void add_outer(enum kind kind, const char *value)
{
    struct action *a = &actions[count_of_actions];
    char *rest = 0, *text = strdup(value);
    if (count_of_actions++ == MOST_ACTIONS)
        wrong(value);
    *a = (struct action){ .change = change_of(kind, value), .order = count_of_actions };
    if (kind < WRITE)
        return;
    strtok_r(text, ":", &rest);
    a->file = strtok_r(0, ":", &rest);
    a->text = rest;
    if (!a->file || (kind == WRITE && !a->text))
        wrong(value);
}

static void parse(struct task *t, char *word, double ms)
{
    const struct { const char *key; int *value; } numbers[] = {
        { "r", &t->own.flags }, { "per", &t->periodic }, { "y", &t->yield }, { "b", &t->burst }, { "pi", &t->held }, { "m", &t->mutex },
        { "m2", &t->second }, { "pis", &t->mutex_sleep }, { "pin", &t->pin }, { "apin", &t->pin_after }, { "fair", &t->fair },
        { "fifo", &t->fifo }, { "may", &t->may }, { "hot", &t->hot }, { "fk", &t->forks }, { "dead", &t->dead },
    };
    *t = (struct task){ .own.flags = RECLAIM, .end = ms, .work_low = 20, .work_high = 80, .sleep_low = 5, .sleep_high = 120,
        .pin = -1, .pin_after = -1, .hot = -1, .second = -1 };
    char *rest = 0, *key = strtok_r(word, ",", &rest), *value, *back;
    snprintf(t->name, sizeof t->name, "%s", key);
    while ((key = strtok_r(0, ",", &rest))) {
        unsigned n = 0;
        if (!(value = strchr(key, '=')))
            wrong(key);
        *value++ = 0;
        for (; n < sizeof numbers / sizeof *numbers && strcmp(key, numbers[n].key); n++)
            ;
        if (n < sizeof numbers / sizeof *numbers) *numbers[n].value = atoi(value);
        else if (!strcmp(key, "q")) t->own.runtime = ns_of(value);
        else if (!strcmp(key, "p")) t->own.period = ns_of(value);
        else if (!strcmp(key, "d")) t->own.deadline = ns_of(value);
        else if (!strcmp(key, "st")) t->start = atof(value);
        else if (!strcmp(key, "en")) t->end = atof(value);
        else if (!strcmp(key, "fl")) t->flags = strtoul(value, 0, 0);
        else if (!strcmp(key, "w")) sscanf(value, "%d-%d", &t->work_low, &t->work_high);
        else if (!strcmp(key, "s")) sscanf(value, "%d-%d", &t->sleep_low, &t->sleep_high);
        else if (!strcmp(key, "o") && (back = strchr(value, ':'))) add_inner(t, LEAVE, value), add_inner(t, RETURN, back + 1);
        else if (!strcmp(key, "ch")) add_inner(t, PARAMETERS, value);
        else if (!strcmp(key, "af")) add_inner(t, AFFINITY, value);
        else if (!strcmp(key, "xc")) add_outer(PARAMETERS, value);
        else if (!strcmp(key, "xa")) add_outer(AFFINITY, value);
        else if (!strcmp(key, "kill")) add_outer(KILL, value);
        else if (!strcmp(key, "wr")) add_outer(WRITE, value);
        else if (!strcmp(key, "rd")) add_outer(READ, value);
        else if (!strcmp(key, "md")) add_outer(MAKE, value);
        else wrong(key);
    }
    if (t->mutex >= MUTEXES || t->second >= MUTEXES || t->hot >= PAIRS)
        wrong(t->name);
    if (!t->own.deadline)
        t->own.deadline = t->own.period;
    if (t->own.period > longest)
        longest = t->own.period;
}

static int begin(const struct task *t)
{
    if (t->fifo)
        return sched_setscheduler(0, SCHED_FIFO, &(struct sched_param){ 10 }) ? 77 : 0;
    return t->fair ? 0 : set_parameters(0, &t->own, t->flags);
}

/* Whoever is killed with a mutex leaves it to the next. */
static void lock(int mutex)
{
    if (pthread_mutex_lock(&shared->mutex[mutex]) == EOWNERDEAD)
        pthread_mutex_consistent(&shared->mutex[mutex]);
}

static void job(const struct task *t, int number)
{
    int held = t->held && number % t->held == 0;
    int both = held && t->second > t->mutex;
    if (held)
        lock(t->mutex);
    if (both)
        lock(t->second);
    work(t->own.runtime * any(t->work_low, t->work_high) / 100);
    if (held && t->mutex_sleep) {
        sleep_for(t->mutex_sleep == 1 ? 2000000 : t->mutex_sleep * 1000ull);
        work(t->own.runtime / 10);
    }
    if (both)
        pthread_mutex_unlock(&shared->mutex[t->second]);
    if (held)
        pthread_mutex_unlock(&shared->mutex[t->mutex]);
    if (t->burst && number % t->burst == 0)
        for (int i = 0; i < 8; i++) {
            sleep_for(t->own.period * 2 / 100);
            work(t->own.runtime * 3 / 100);
        }
    if (t->forks && number % t->forks == 0) {
        pid_t child = fork();
        if (child == 0)
            _exit(0);
        if (child > 0)
            waitpid(child, 0, 0);
    }
}

static void take_turns(const struct task *t, int side)
{
    struct timespec limit;
    sem_post(&shared->turn[t->hot][!side]);
    clock_gettime(CLOCK_REALTIME, &limit);
    uint64_t until = limit.tv_sec * 1000000000ull + limit.tv_nsec + t->own.period;
    limit = (struct timespec){ until / 1000000000, until % 1000000000 };
    sem_timedwait(&shared->turn[t->hot][side], &limit);
}

static void overrun(int signal) { (void)signal; }

static void change(struct task *t, const struct change *c)
{
    if (c->kind == LEAVE)
        sched_setscheduler(0, SCHED_OTHER, &(struct sched_param){ 0 });
    else if (c->kind == RETURN)
        set_parameters(0, &t->own, t->flags);
    else if (c->kind == AFFINITY && keep_to(0, c->mask))
        perror("dlgen: af");
    else if (c->kind == PARAMETERS) {
        if (c->to.runtime)
            t->own = c->to;
        set_parameters(0, &c->to, t->flags);
    }
}

static int run(struct task *t, uint64_t zero, int side)
{
    uint64_t end = zero + t->end * 1000000, next;
    int number = 0, changed = 0, status;
    prctl(PR_SET_NAME, t->name);
    prctl(PR_SET_PDEATHSIG, SIGKILL);
    sigaction(SIGXCPU, &(struct sigaction){ .sa_handler = overrun }, 0);
    if (t->pin >= 0 && keep_to(0, 1ul << t->pin))
        perror("dlgen: pin");
    sleep_until(zero + t->start * 1000000);
    if ((status = begin(t)) && !t->may)
        return status;
    if (t->pin_after >= 0 && keep_to(0, 1ul << t->pin_after))
        perror("dlgen: apin");
    next = now();
    while (now() < end) {
        number++;
        for (; changed < t->inners && now() >= zero + t->inner[changed].at; changed++)
            change(t, &t->inner[changed]);
        job(t, number);
        if (t->yield && number % t->yield == 0) {
            sched_yield();
            next = now();
        } else if (t->hot >= 0) {
            take_turns(t, side);
        } else if (t->periodic) {
            next += t->own.period;
            if (next < now())
                next = now();
            sleep_until(next);
        } else if (t->sleep_high > 0)
            sleep_for(t->own.period * any(t->sleep_low, t->sleep_high) / 100);
    }
    return 0;
}

/* Writes the text to a file; without one reads it. */
static void use(const char *file, const char *text)
{
    char line[4096];
    int it = open(file, text ? O_WRONLY : O_RDONLY);
    ssize_t done = it;
    snprintf(line, sizeof line, "%s", text ? text : "");
    for (int i = 0; i < count_made && line[0] == '@'; i++)
        if (!strcmp(made[i].name, line + 1))
            snprintf(line, sizeof line, "%d", made[i].pid);
    if (it >= 0)
        done = text ? write(it, line, strlen(line)) : read(it, line, sizeof line);
    if (done < 0)
        fprintf(stderr, "dlgen: %s%s%s: %s\n", text ? text : "", text ? " > " : "", file, strerror(errno));
    if (it >= 0)
        close(it);
}

static void act(const struct action *a)
{
    enum kind kind = a->change.kind;
    siginfo_t left = { .si_pid = 0 };
    if (a->pid && !a->dead && waitid(P_PID, a->pid, &left, WEXITED | WNOHANG | WNOWAIT) == 0 && left.si_pid)
        return;
    if (kind == PARAMETERS)
        set_parameters(a->pid, &a->change.to, 0);
    else if (kind == AFFINITY && keep_to(a->pid, a->change.mask))
        perror("dlgen: xa");
    else if (kind == KILL)
        kill(a->pid, SIGKILL);
    else if (kind == WRITE || kind == READ)
        use(a->file, kind == WRITE ? a->text : 0);
    else if (kind == MAKE && mkdir(a->file, 0755) && errno != EEXIST)
        fprintf(stderr, "dlgen: %s: %s\n", a->file, strerror(errno));
}

static int is_earlier(const void *a, const void *b)
{
    const struct action *x = a, *y = b;
    return x->change.at != y->change.at ? x->change.at < y->change.at ? -1 : 1 : x->order - y->order;
}

static void ends(pid_t pid, int status, int *worst)
{
    for (int i = 0; i < count_made; i++)
        if (made[i].pid == pid)
            made[i].pid = 0;
    if (WIFEXITED(status) && WEXITSTATUS(status) > *worst)
        *worst = WEXITSTATUS(status);
}

/* How long a task without budget waits for its next period, which is far away where a small budget was overrun by many periods. */
static uint64_t waits(pid_t pid)
{
    struct attributes of = { 0 };
    char path[32], line[256];
    long long budget = 1, deadline = 0;
    snprintf(path, sizeof path, "/proc/%d/sched", pid);
    FILE *file = fopen(path, "r");
    if (!file)
        return 0;
    while (fgets(line, sizeof line, file)) {
        sscanf(line, "dl.runtime :%lld", &budget);
        sscanf(line, "dl.deadline :%lld", &deadline);
    }
    fclose(file);
    if (budget > 0 || syscall(SYS_sched_getattr, pid, &of, sizeof of, 0) || of.policy != DEADLINE)
        return 0;
    uint64_t next = deadline - of.deadline + of.period, at = now();
    return next > at ? next - at : 0;
}

/* Kills whoever is there still; the second time it was stuck, and is put out of the class, which ends it. */
static void end_all(int again, uint64_t patience)
{
    for (int i = 0; i < count_made; i++) {
        if (!made[i].pid)
            continue;
        kill(made[i].pid, SIGKILL);
        if (!again)
            continue;
        uint64_t more = waits(made[i].pid);
        if (more)
            fprintf(stderr, "dlgen: throttled: %s (pid %d) was killed, and waits %.1f s for its next period\n", made[i].name, made[i].pid, more / 1e9);
        else
            fprintf(stderr, "dlgen: stuck: %s (pid %d) was killed and did not run for %.1f s\n", made[i].name, made[i].pid, patience / 1e9);
        set_parameters(made[i].pid, &(struct parameters){ .flags = SCHED_OTHER }, 0);
    }
}

/* Waits for the tasks: each has its time, four of the longest periods and a second. */
static int await(uint64_t zero, double seconds)
{
    int status, worst = 0, killed = 0;
    uint64_t patience = 4 * longest + 1000000000, limit = zero + seconds * 1000000000 + patience;
    for (;;) {
        pid_t pid = waitpid(-1, &status, WNOHANG);
        if (pid < 0)
            return worst;
        if (pid > 0) {
            ends(pid, status, &worst);
            continue;
        }
        uint64_t left = limit > now() ? limit - now() : 0;
        if (sigtimedwait(&ended, 0, &(struct timespec){ left / 1000000000, left % 1000000000 }) > 0 || now() < limit)
            continue;
        if (killed == 2) {
            fprintf(stderr, "dlgen: a task cannot be ended\n");
            return 78;
        }
        end_all(killed, patience);
        if (killed++)
            worst = 78;
        limit = now() + patience;
    }
}

int main(int count, char **words)
{
    pthread_mutexattr_t inheriting;
    int sides[PAIRS] = { 0 };
    if (count < 4 || count > 3 + MOST_TASKS) {
        fprintf(stderr, "usage: dlgen SECONDS SEED TASK..\n");
        return 2;
    }
    double seconds = atof(words[1]);
    uint64_t of_words = atoi(words[2]);
    shared = mmap(0, sizeof *shared, PROT_READ | PROT_WRITE, MAP_SHARED | MAP_ANONYMOUS, -1, 0);
    pthread_mutexattr_init(&inheriting);
    pthread_mutexattr_setpshared(&inheriting, 1);
    pthread_mutexattr_setprotocol(&inheriting, PTHREAD_PRIO_INHERIT);
    pthread_mutexattr_setrobust(&inheriting, PTHREAD_MUTEX_ROBUST);
    for (int i = 0; i < MUTEXES; i++)
        pthread_mutex_init(&shared->mutex[i], &inheriting);
    for (int i = 0; i < 2 * PAIRS; i++)
        sem_init(&shared->turn[i / 2][i % 2], 1, 0);
    sigaddset(&ended, SIGCHLD);
    sigprocmask(SIG_BLOCK, &ended, 0);
    uint64_t zero = now() + 20000000;
    for (int i = 3; i < count; i++) {
        struct task t;
        int first = count_of_actions, side = 0;
        if (sscanf(words[i], "seed=%lu", &of_words) == 1)
            continue;
        parse(&t, words[i], seconds * 1000);
        if (!strcmp(t.name, "sys"))
            continue;
        if (t.hot >= 0)
            side = sides[t.hot]++ % 2;
        pid_t pid = fork();
        if (pid == 0) {
            /* By the number of gr_N, so that a task works the same where others are left out. */
            int number = i;
            if (sscanf(t.name, "gr_%d", &number) == 1)
                number += 3;
            seed = of_words * 7919 + number * 104729 + 1;
            for (int k = 0; k < 8; k++)
                any(0, 1);
            _exit(run(&t, zero, side));
        }
        if (pid < 0)
            return perror("dlgen: fork"), 3;
        for (; first < count_of_actions; first++) {
            actions[first].pid = pid;
            actions[first].dead = t.dead;
        }
        snprintf(made[count_made].name, sizeof made->name, "%s", t.name);
        made[count_made++].pid = pid;
    }
    qsort(actions, count_of_actions, sizeof *actions, is_earlier);
    for (int i = 0; i < count_of_actions; i++) {
        sleep_until(zero + actions[i].change.at);
        act(&actions[i]);
    }
    return await(zero, seconds);
}
