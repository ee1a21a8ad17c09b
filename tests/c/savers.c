/* Files that are replaced among others: two savers at once; the old file's mode and owner; new names that are taken, or too long; folders,
 * looks and sizes that the system refuses. Argument: a folder to write in. Where the program may, parts of it run as the user `nobody`,
 * whom modes bind. */
#define _GNU_SOURCE /* RLIMIT_FSIZE, setgroups */
#include "cedar.h"
#include "check.h"
#include <dirent.h>
#include <errno.h>
#include <fcntl.h>
#include <grp.h>
#include <signal.h>
#include <string.h>
#include <sys/resource.h>
#include <sys/stat.h>
#include <sys/wait.h>
#include <unistd.h>

enum { SAVES = 300, LONG = 200000, NAMES = 100 };

/* The user, his group, and another one that he belongs to. */
enum { NOBODY = 65534, FURTHER = 65533 };

static const char OLD[] = "the old file", NEW[] = "what is to take its place", FOREIGN[] = "somebody else's";

static uint32_t replace(const char *path, const char *text) { return cedar_replace_file(path, (const uint8_t *)text, strlen(text)); }

/* Writes a file without the library. */
static void put(const char *path, const char *text) {
    FILE *file = fopen(path, "wb");
    CHECK(file != NULL && fputs(text, file) >= 0 && fclose(file) == 0);
}

static bool has(const char *path, const char *text) {
    char found[64] = "";
    FILE *file = fopen(path, "rb");
    if (file == NULL) return false;
    size_t count = fread(found, 1, sizeof found, file);
    fclose(file);
    return count == strlen(text) && memcmp(found, text, count) == 0;
}

static struct stat look(const char *path) {
    struct stat found;
    CHECK(lstat(path, &found) == 0);
    return found;
}

/* How many names are in a folder. */
static int names_in(const char *folder) {
    DIR *opened = opendir(folder);
    CHECK(opened != NULL);
    int count = 0;
    while (readdir(opened) != NULL) count++;
    closedir(opened);
    return count - 2; /* without the folder and the one above it */
}

/* A part of the test in a process of its own, as nobody if that is wanted and allowed. */
static void apart(bool is_nobody, void (*part)(void)) {
    pid_t child = fork();
    CHECK(child >= 0);
    if (child == 0) {
        const gid_t further = FURTHER;
        if (is_nobody && geteuid() == 0) CHECK(setgroups(1, &further) == 0 && setgid(NOBODY) == 0 && setuid(NOBODY) == 0);
        part();
        _exit(0);
    }
    int how;
    CHECK(waitpid(child, &how, 0) == child && how == 0);
}

static void make(cedar *d, int32_t keys) {
    uint8_t key[12];
    CHECK(cedar_new(d) == CEDAR_OK);
    for (int32_t i = 0; i < keys; i++) CHECK(cedar_update(d, key, (size_t)sprintf((char *)key, "k%d", (int)i), i, NULL) == CEDAR_OK);
}

/* Saves a dictionary again and again, and loads what is there: it is one of the two that are saved. */
static void save_again(size_t keys, size_t others) {
    cedar d = CEDAR_CLOSED, found = CEDAR_CLOSED;
    make(&d, (int32_t)keys);
    for (int i = 0; i < SAVES; i++) {
        CHECK(cedar_save_file(&d, i % 2, "words") == CEDAR_OK && cedar_load_file(&found, "words", CEDAR_LOAD_LIMIT) == CEDAR_OK);
        CHECK(cedar_len(&found) == keys || cedar_len(&found) == others);
    }
    cedar_free(&d);
    cedar_free(&found);
}

static void save_few(void) { save_again(20, 3000); }

/* Two processes save to the same path: no file is refused, and each is that of one of them. */
static void two_savers(void) {
    pid_t child = fork();
    CHECK(child >= 0);
    if (child == 0) {
        save_few();
        _exit(0);
    }
    save_again(3000, 20);
    int how;
    CHECK(waitpid(child, &how, 0) == child && how == 0 && names_in(".") == 1 && unlink("words") == 0);
}

/* The bytes are those that were given, also none. */
static void any_bytes(void) {
    static uint8_t wanted[LONG], found[LONG + 1];
    for (size_t i = 0; i < LONG; i++) wanted[i] = (uint8_t)next_random();
    CHECK(cedar_replace_file("words", wanted, LONG) == CEDAR_OK);
    FILE *file = fopen("words", "rb");
    CHECK(file != NULL && fread(found, 1, sizeof found, file) == LONG && memcmp(found, wanted, LONG) == 0 && fclose(file) == 0);
    CHECK(cedar_replace_file("words", NULL, 0) == CEDAR_OK && has("words", "") && replace("./words", NEW) == CEDAR_OK && has("words", NEW));
    CHECK(names_in(".") == 1 && unlink("words") == 0);
}

/* Each mode stays. A file that is new has the umask's. */
static void modes(void) {
    static const mode_t some[] = {0, 0400, 0444, 0600, 0604, 0640, 0644, 0666, 0755, 0777, 01644, 02755, 04755, 06755, 07777};
    mode_t mask = umask(0);
    for (mode_t each = 0; each < 0100; each += 011) {
        umask(each);
        CHECK(replace("words", OLD) == CEDAR_OK && look("words").st_mode == (S_IFREG | (0666 & ~each)) && unlink("words") == 0);
    }
    umask(0777);
    put("words", OLD);
    for (size_t i = 0; i < sizeof some / sizeof *some; i++) {
        CHECK(chmod("words", some[i]) == 0 && look("words").st_mode == (S_IFREG | some[i]));
        CHECK(replace("words", NEW) == CEDAR_OK && look("words").st_mode == (S_IFREG | some[i]));
    }
    umask(mask);
    CHECK(names_in(".") == 1 && unlink("words") == 0);
}

/* Owner and group stay where that is allowed. */
static void keep_the_owner(void) {
    put("words", OLD);
    CHECK(chown("words", NOBODY, NOBODY) == 0 && chmod("words", 06750) == 0 && replace("words", NEW) == CEDAR_OK && has("words", NEW));
    struct stat found = look("words");
    CHECK(found.st_mode == (S_IFREG | 06750) && found.st_uid == NOBODY && found.st_gid == NOBODY);
}

/* A file of root's, as nobody: what root's program may do, nobody's may not. A group that he belongs to stays. */
static void take_over(gid_t group) {
    CHECK(replace("words", NEW) == CEDAR_OK && has("words", NEW));
    struct stat found = look("words");
    CHECK(found.st_mode == (S_IFREG | 0755) && found.st_uid == NOBODY && found.st_gid == group);
}

static void take_over_both(void) { take_over(NOBODY); }
static void take_over_alone(void) { take_over(FURTHER); }

static void owners(void) {
    keep_the_owner();
    CHECK(chown("words", 0, 0) == 0 && chmod("words", 06755) == 0);
    apart(true, take_over_both);
    CHECK(chown("words", 0, FURTHER) == 0 && chmod("words", 06755) == 0);
    apart(true, take_over_alone);
    CHECK(names_in(".") == 1 && unlink("words") == 0);
}

/* What has the names of new files, a file that can't be opened among it, stays. */
static void pass_by(void) {
    CHECK(replace("words", NEW) == CEDAR_OK && has("words", NEW) && names_in(".") == 4 && S_ISDIR(look("words.2.new").st_mode));
    CHECK(S_ISLNK(look("words.1.new").st_mode) && access("words.1.new", F_OK) != 0 && S_ISREG(look("words.new").st_mode));
}

static void others_files(void) {
    put("words.new", FOREIGN);
    put("words", OLD);
    CHECK(chmod("words.new", 0600) == 0 && symlink("none", "words.1.new") == 0 && mkdir("words.2.new", 0700) == 0);
    apart(true, pass_by);
    CHECK(has("words.new", FOREIGN) && look("words.new").st_uid == geteuid() && look("words.new").st_mode == (S_IFREG | 0600));
    CHECK(unlink("words.new") == 0 && unlink("words.1.new") == 0 && rmdir("words.2.new") == 0 && unlink("words") == 0);
}

/* The name that is tried n-th beside another one, of which so many bytes are kept where they leave no room. */
static const char *nth_beside(const char *name, size_t kept, int n) {
    static char beside[512];
    char suffix[32] = ".new";
    if (n > 0) sprintf(suffix, ".%d.new", n);
    size_t length = strlen(name);
    sprintf(beside, "%.*s%s", (int)(length + strlen(suffix) > 255 ? kept : length), name, suffix);
    return beside;
}

/* Takes all names beside one, and then gives the one of this number back. The old file's own name, which one that is cut may be, isn't
 * among them: what isn't whole would stand there. */
static void take_names(const char *name, size_t kept, int free_one) {
    int taken = 0;
    for (int i = 0; i < NAMES; i++) {
        if (strcmp(nth_beside(name, kept, i), name) == 0) continue;
        put(nth_beside(name, kept, i), FOREIGN);
        taken++;
    }
    CHECK(replace(name, OLD) == CEDAR_FILE_UNREAD && errno == EEXIST && names_in(".") == taken);
    CHECK(unlink(nth_beside(name, kept, free_one)) == 0 && replace(name, OLD) == CEDAR_OK && replace(name, NEW) == CEDAR_OK);
    CHECK(has(name, NEW) && names_in(".") == taken && unlink(name) == 0);
    for (int i = 0; i < NAMES; i++) {
        const char *beside = nth_beside(name, kept, i);
        if (i != free_one && strcmp(beside, name) != 0) CHECK(has(beside, FOREIGN) && unlink(beside) == 0);
    }
    CHECK(names_in(".") == 0);
}

/* A name of so many bytes, which ends so. */
static const char *name_of(size_t length, const char *end) {
    static char name[512];
    memset(name, 'a', length);
    strcpy(name + length - strlen(end), end);
    return name;
}

static void names_taken(void) {
    char name[512];
    take_names("words", 0, NAMES - 1);
    for (size_t length = 248; length <= 255; length++) take_names(name_of(length, ""), 247, (int)length % 10);
    take_names(name_of(254, ".99.new"), 247, 98);
    take_names(name_of(253, ".1.new"), 247, 2);
    for (size_t left = 0; left < 4; left++) { /* a character of four bytes, of which as many have room */
        strcpy(name, name_of(255, ""));
        memcpy(name + 247 - left, "\xF0\xA0\x80\x80", 4);
        take_names(name, 247 - left, 1);
    }
    memset(name, 0x80, 255); /* not UTF-8 */
    take_names(name, 244, 0);
    CHECK(replace(name_of(256, ""), NEW) == CEDAR_FILE_UNREAD && errno == ENAMETOOLONG && names_in(".") == 0);
}

/* Paths that the system doesn't take, one of them in a folder. */
static void long_paths(void) {
    static char path[8192];
    for (size_t i = 0; i + 2 < sizeof path; i += 2) memcpy(path + i, "./", 3);
    CHECK(replace(path, NEW) == CEDAR_FILE_UNREAD && errno == ENAMETOOLONG);
    strcpy(path + 4090, "words");
    CHECK(strlen(path) == 4095 && replace(path, NEW) == CEDAR_OK && has("words", NEW) && names_in(".") == 1 && unlink("words") == 0);
}

/* Nothing may be made in the folder. */
static void refused_folder(void) {
    CHECK(replace("words", NEW) == CEDAR_FILE_UNREAD && errno == EACCES && has("words", OLD));
    CHECK(replace("none", NEW) == CEDAR_FILE_UNREAD && errno == EACCES);
}

static void folders(void) {
    put("words", OLD);
    static const mode_t some[] = {0555, 0111, 0333}; /* not to be written to, and then not to be read, or opened, either */
    for (size_t i = 0; i < sizeof some / sizeof *some; i++) {
        CHECK(chmod(".", some[i]) == 0);
        apart(true, refused_folder);
        CHECK(chmod(".", 0777) == 0 && names_in(".") == 1);
    }
    CHECK(unlink("words") == 0);
}

/* A link that leads to where one may not look is replaced, by a file that is like any new one. */
static void replace_a_link(void) {
    umask(022);
    CHECK(replace("words", NEW) == CEDAR_OK && has("words", NEW) && look("words").st_mode == (S_IFREG | 0644));
}

static void links_to_closed_folders(void) {
    CHECK(mkdir("closed", 0700) == 0 && symlink("closed/old", "words") == 0);
    put("closed/old", OLD);
    CHECK(chmod("closed/old", 0600) == 0 && chmod("closed", 0) == 0);
    apart(true, replace_a_link);
    CHECK(chmod("closed", 0700) == 0 && has("closed/old", OLD) && look("closed/old").st_mode == (S_IFREG | 0600));
    CHECK(unlink("closed/old") == 0 && rmdir("closed") == 0 && names_in(".") == 1 && unlink("words") == 0);
}

/* The disk takes no more bytes of a file. */
static void refused_bytes(void) {
    static uint8_t bytes[LONG];
    const struct rlimit limit = {LONG / 2, LONG / 2};
    CHECK(signal(SIGXFSZ, SIG_IGN) != SIG_ERR && setrlimit(RLIMIT_FSIZE, &limit) == 0);
    CHECK(cedar_replace_file("words", bytes, LONG) == CEDAR_FILE_UNREAD && errno == EFBIG && has("words", OLD) && names_in(".") == 1);
    CHECK(cedar_replace_file("none", bytes, LONG) == CEDAR_FILE_UNREAD && errno == EFBIG && names_in(".") == 1);
    CHECK(cedar_replace_file("words", bytes, LONG / 2) == CEDAR_OK && look("words").st_size == LONG / 2);
}

static void sizes(void) {
    put("words", OLD);
    apart(false, refused_bytes);
    CHECK(names_in(".") == 1 && unlink("words") == 0);
}

int main(int count, char **arguments) {
    CHECK(count == 2 && chdir(arguments[1]) == 0);
    char folder[] = "savers.XXXXXX";
    CHECK(mkdtemp(folder) != NULL && chdir(folder) == 0 && chmod(".", 0777) == 0);
    bool is_root = geteuid() == 0;
    two_savers();
    any_bytes();
    modes();
    apart(true, modes);
    others_files();
    names_taken();
    long_paths();
    folders();
    links_to_closed_folders();
    sizes();
    if (is_root) owners();
    CHECK(chdir("..") == 0 && rmdir(folder) == 0);
    printf("%s\nok\n", is_root ? "also as nobody" : "as one user: owners aren't tested");
    return 0;
}
