/* clients FOLDER COUNT MILLISECONDS WORK [synced]: has so many processes make calls in a folder at once, each in a directory of its own there,
 * for so long. Prints how many calls a second they made together; ends with 1 where one failed.
 *
 * WORK is `mkdir`, which makes a directory and removes it, two calls, or `store`, which makes or replaces a file of 100 bytes and closes it, and
 * counts as one. With `synced` each is followed by an fsync of the directory, and by one of the file, so that it survives a power cut. One file
 * of the folder is open all the while, as a program's own is: by it the server of a folder learns that no more calls wait.
 */
#include <errno.h>
#include <fcntl.h>
#include <stdatomic.h>
#include <stdio.h>
#include <stdlib.h>
#include <string.h>
#include <sys/mman.h>
#include <sys/stat.h>
#include <sys/wait.h>
#include <time.h>
#include <unistd.h>

struct shared {
    atomic_int ready;
    atomic_int begins;
    atomic_long calls;
};

static double now(void) {
    struct timespec it;
    clock_gettime(CLOCK_MONOTONIC, &it);
    return it.tv_sec + it.tv_nsec / 1e9;
}

static void must(int result, const char *what) {
    if (result < 0) {
        fprintf(stderr, "%s: %s\n", what, strerror(errno));
        exit(1);
    }
}

static long make_directory(int at, int synced) {
    must(mkdirat(at, "name", 0755), "mkdir");
    if (synced) must(fsync(at), "fsync");
    must(unlinkat(at, "name", AT_REMOVEDIR), "rmdir");
    if (synced) must(fsync(at), "fsync");
    return 2;
}

static long store(int at, int synced, long round) {
    static char data[100];
    char name[32];
    snprintf(name, sizeof name, "file%ld", round % 20);
    int file = openat(at, name, O_CREAT | O_TRUNC | O_WRONLY, 0644);
    must(file, "open");
    must(write(file, data, sizeof data) == sizeof data ? 0 : -1, "write");
    if (synced) must(fsync(file), "fsync");
    must(close(file), "close");
    if (synced) must(fsync(at), "fsync");
    return 1;
}

static void work(struct shared *shared, const char *folder, int number, double seconds, int stores, int synced) {
    char path[4096];
    snprintf(path, sizeof path, "%s/client%d", folder, number);
    if (mkdir(path, 0755) < 0 && errno != EEXIST) must(-1, path);
    int at = open(path, O_RDONLY | O_DIRECTORY);
    must(at, path);
    atomic_fetch_add(&shared->ready, 1);
    while (!atomic_load(&shared->begins)) usleep(100);
    long calls = 0;
    double end = now() + seconds;
    for (long round = 0; now() < end; round++) calls += stores ? store(at, synced, round) : make_directory(at, synced);
    atomic_fetch_add(&shared->calls, calls);
    exit(0);
}

int main(int count, char **words) {
    if (count < 5) {
        fprintf(stderr, "usage: clients FOLDER COUNT MILLISECONDS mkdir|store [synced]\n");
        return 1;
    }
    int clients = atoi(words[2]);
    double seconds = atof(words[3]) / 1000;
    char path[4096];
    snprintf(path, sizeof path, "%s/open", words[1]);
    must(open(path, O_CREAT | O_RDWR, 0644), path);
    struct shared *shared = mmap(NULL, sizeof *shared, PROT_READ | PROT_WRITE, MAP_SHARED | MAP_ANONYMOUS, -1, 0);
    for (int number = 0; number < clients; number++) {
        if (fork() == 0) work(shared, words[1], number, seconds, strcmp(words[4], "store") == 0, count > 5);
    }
    int status, failed = 0;
    while (atomic_load(&shared->ready) < clients) {
        usleep(100);
        if (waitpid(-1, &status, WNOHANG) > 0) return 1;
    }
    double begun = now();
    atomic_store(&shared->begins, 1);
    while (wait(&status) > 0) failed |= status;
    printf("%.0f\n", atomic_load(&shared->calls) / (now() - begun));
    return failed != 0;
}
