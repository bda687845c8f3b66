// pumpgrape-mount IMAGE DIR: the volume in IMAGE as the file system at DIR. Each call of the kernel becomes requests
// to the volume; what they do, and which of them are refused, is decided there and nowhere here.
#define FUSE_USE_VERSION 31
#include <errno.h>
#include <fcntl.h>
#include <fuse.h>
#include <fuse_lowlevel.h>
#include <limits.h>
#include <stdarg.h>
#include <stdio.h>
#include <stdlib.h>
#include <string.h>
#include <sys/stat.h>
#include <sys/wait.h>
#include <syslog.h>
#include <time.h>
#include <unistd.h>

#include "volume.h"

#define VERSION "0.1.0"

// The weight of a record without data, in bytes, and what `df` counts in.
enum { RECORD = 64 };

// A name with its null byte, by how many names a list grows, and how many stand for directories.
enum { NAME_SIZE = 21, NAMES_STEP = 64, DOTS = 2 };

// Seconds for which the kernel may keep what it was told.
static const double FOREVER = 1e9;

static const char HELP[] =
    "pumpgrape-mount IMAGE DIR [-f] [-o OPTION[,OPTION..]]\n"
    "\n"
    "Mounts the volume in the file IMAGE at the directory DIR, by jffs_volume serve; or the one on the chip IMAGE, as\n"
    "/dev/mtd0, by the library for C. fusermount3 -u DIR unmounts it.\n"
    "\n"
    "  -f                   stays in the foreground, and tells there what fails\n"
    "  -d                   the same, and libfuse tells of each call\n"
    "  -o ro                nothing can be changed\n"
    "  -o serve=PROGRAM     starts PROGRAM in place of the jffs_volume beside this program\n"
    "  -o sector_size=BYTES the size of a sector, where IMAGE may have several\n"
    "  -o sectors=COUNT     how many sectors the volume has, where the chip is longer\n"
    "  -o OPTION            any other option of libfuse, as allow_other\n"
    "  -h, -V               this text, the version\n"
    "\n"
    "Modes, owners and times aren't kept: files are shown as rw-r--r--, directories as rwxr-xr-x, all of them with\n"
    "the owner and the time of the mount. A rename over a file removes that file first: after a loss of power between\n"
    "both the new one is there whole, under its old name.\n"
    "\n"
    "Status: 0 once it is mounted; 1 where the mount fails; 2 after a wrong call; else that of jffs_volume serve.\n";

static struct {
    char *image, *directory, *program, *sector_size, *sectors;
    int foreground, read_only, help, version;
    // Whether the kernel can do without opening files.
    int asks_no_open;
    // Where nobody reads standard error any more.
    int in_background;
    // What is shown of each file and directory.
    struct stat shown;
} mounted;

static const struct volume *volume;
struct limits limits;
void (*volume_lost)(const char *why);

// Tells people what is wrong: on standard error, or in the background in the system's log.
__attribute__((format(printf, 1, 2)))
static void tell(const char *form, ...) {
    char line[PATH_MAX + 1280];
    va_list words;
    va_start(words, form);
    vsnprintf(line, sizeof line, form, words);
    va_end(words);
    if (mounted.in_background)
        syslog(LOG_ERR, "%s", line);
    else
        fprintf(stderr, "pumpgrape-mount: %s\n", line);
}

static void tell_lost(const char *why) { tell("%s: %s", mounted.image, why); }

// Why no path of the volume is like this one.
static int error_of_path(const char *path) {
    uint64_t names = 0;
    while (*path == '/') {
        size_t length = strcspn(++path, "/");
        if (length > limits.name || (length > 0 && ++names > limits.names))
            return -ENAMETOOLONG;
        path += length;
    }
    return -EINVAL;
}

// What an answer is for a call at one path.
static int answered(int error, const char *path) { return error == -EINVAL ? error_of_path(path) : error; }

static const struct seen A_FILE = {0, 0}, A_DIRECTORY = {1, 0};

// What is known without a look, since nobody else changes the volume: what was made or cut last, of which the kernel
// asks for the attributes at once, and the directory that was looked at last, of which it does after each change in it.
static struct known {
    char path[PATH_MAX];
    struct seen seen;
} made, directory;

static void remember(struct known *known, const char *path, struct seen seen) {
    snprintf(known->path, sizeof known->path, "%s", path);
    known->seen = seen;
}

static void forget(struct known *known) { known->path[0] = '\0'; }

// The same where something else may stand at this path, or below it.
static void forget_below(const char *path) {
    forget(&made);
    if (strncmp(directory.path, path, strlen(path)) == 0)
        forget(&directory);
}

// There is no path where a file is open that was removed. At a path that is none nothing stands.
static int look(const char *path, struct seen *seen) {
    if (path == NULL)
        return -ESTALE;
    if (strcmp(path, made.path) == 0)
        return *seen = made.seen, 0;
    if (strcmp(path, directory.path) == 0)
        return *seen = directory.seen, 0;
    int error = answered(volume->look(path, seen), path);
    if (error == 0 && seen->directory)
        remember(&directory, path, *seen);
    return error == -EINVAL ? -ENOENT : error;
}

// Whether a record with so many bytes may be asked for. Below the weight `sure` every change has room, above it even a
// removal may have none: so it isn't reached, and what is full can be made empty again.
static int has_room(size_t data) {
    // At least what the live records weigh, and the weight.
    static uint64_t live, sure;
    uint64_t record = RECORD + (data + 3) / 4 * 4;
    struct room room;
    if (live + record >= sure) {
        int error = volume->room(&room);
        if (error != 0)
            return error;
        live = room.live;
        sure = room.sure;
    }
    if (live + record >= sure)
        return -ENOSPC;
    live += record;
    return 0;
}

// Makes a file or directory, by the call of the volume that does.
static int make(int (*call)(const char *), struct seen what, const char *path) {
    int error = has_room(0);
    error = error != 0 ? error : answered(call(path), path);
    if (error == 0)
        remember(&made, path, what);
    return error;
}

static void *on_init(struct fuse_conn_info *connection, struct fuse_config *config) {
    // A file that is removed is gone, also where it is open: the name that libfuse would hide it under is too long.
    config->hard_remove = 1;
    // Nobody else changes the volume, so the kernel may keep what it was told, and what it has written and read.
    config->kernel_cache = 1;
    config->entry_timeout = config->attr_timeout = config->negative_timeout = FOREVER;
    // It then cuts a file by a call of its own before it opens it, doesn't ask whether a file's bytes are others now,
    // and gets a directory's names with what stands there. Moving pages by pipes costs more than a copy.
    connection->want &= ~(unsigned)(FUSE_CAP_ATOMIC_O_TRUNC | FUSE_CAP_AUTO_INVAL_DATA | FUSE_CAP_READDIRPLUS_AUTO |
                                    FUSE_CAP_SPLICE_READ | FUSE_CAP_SPLICE_WRITE | FUSE_CAP_SPLICE_MOVE);
    mounted.asks_no_open = (connection->capable & FUSE_CAP_NO_OPEN_SUPPORT) != 0;
    return NULL;
}

// An open file is no more than its path: where the kernel takes ENOSYS for that, it asks no more.
static int on_open(const char *path, struct fuse_file_info *file) {
    (void)path, (void)file;
    return mounted.asks_no_open ? -ENOSYS : 0;
}

static struct stat status_of(const struct seen *seen) {
    struct stat status = mounted.shown;
    status.st_mode = seen->directory ? S_IFDIR | 0755 : S_IFREG | 0644;
    status.st_nlink = 1;
    status.st_size = (off_t)seen->size;
    status.st_blocks = (blkcnt_t)((seen->size + 511) / 512);
    return status;
}

static int on_getattr(const char *path, struct stat *status, struct fuse_file_info *file) {
    (void)file;
    struct seen seen;
    int error = look(path, &seen);
    if (error == 0)
        *status = status_of(&seen);
    return error;
}

// The names of an open directory, as they were when its first ones were read: so the kernel can go on at any of them,
// whatever is changed between.
struct names {
    size_t count;
    struct name {
        struct seen seen;
        char text[NAME_SIZE];
    } *all;
};

static struct names *names_of(const struct fuse_file_info *file) { return (struct names *)(uintptr_t)file->fh; }

static int on_opendir(const char *path, struct fuse_file_info *file) {
    (void)path;
    struct names *names = calloc(1, sizeof *names);
    file->fh = (uintptr_t)names;
    return names == NULL ? -ENOMEM : 0;
}

static int on_releasedir(const char *path, struct fuse_file_info *file) {
    (void)path;
    free(names_of(file)->all);
    free(names_of(file));
    return 0;
}

static int add_name(void *context, const char *text, const struct seen *seen) {
    struct names *names = context;
    if (names->count % NAMES_STEP == 0) {
        struct name *more = realloc(names->all, (names->count + NAMES_STEP) * sizeof *more);
        if (more == NULL)
            return -ENOMEM;
        names->all = more;
    }
    struct name *name = &names->all[names->count++];
    *name = (struct name){*seen, ""};
    strncat(name->text, text, NAME_SIZE - 1);
    return 0;
}

// The first two names are there always. A name like them, which a volume may have, means something else to the kernel.
static int read_names(const char *path, struct names *names) {
    names->count = 0;
    int error = add_name(names, ".", &A_DIRECTORY);
    error = error != 0 ? error : add_name(names, "..", &A_DIRECTORY);
    error = error != 0 ? error : answered(volume->list(path, add_name, names), path);
    size_t kept = error != 0 ? 0 : DOTS;
    for (size_t at = kept; at < names->count; at++)
        if (strcmp(names->all[at].text, ".") != 0 && strcmp(names->all[at].text, "..") != 0)
            names->all[kept++] = names->all[at];
    names->count = kept;
    return error;
}

static int on_readdir(const char *path, void *to, fuse_fill_dir_t fill, off_t offset, struct fuse_file_info *file,
                      enum fuse_readdir_flags flags) {
    struct names *names = names_of(file);
    int plus = (flags & FUSE_READDIR_PLUS) != 0;
    if (path == NULL)
        return -ESTALE;
    int error = offset == 0 ? read_names(path, names) : 0;
    for (size_t at = (size_t)offset; error == 0 && at < names->count; at++) {
        struct stat status = status_of(&names->all[at].seen);
        if (fill(to, names->all[at].text, &status, (off_t)at + 1, plus && at >= DOTS ? FUSE_FILL_DIR_PLUS : 0) != 0)
            break;
    }
    return error;
}

static int on_read(const char *path, char *bytes, size_t size, off_t offset, struct fuse_file_info *file) {
    (void)file;
    if (path == NULL)
        return -ESTALE;
    return offset > UINT32_MAX ? 0 : answered(volume->read(path, bytes, size, (uint32_t)offset), path);
}

// Writes one piece, of the longest write at most.
static int write_piece(const char *path, const char *bytes, size_t size, uint64_t offset) {
    if (path == NULL || offset > UINT32_MAX)
        return path == NULL ? -ESTALE : -EFBIG;
    int error = has_room(size);
    return error != 0 ? error : answered(volume->write(path, bytes, size, (uint32_t)offset), path);
}

// Writes piece by piece. Where one is refused after others, what was written is what those have.
static int on_write(const char *path, const char *bytes, size_t size, off_t offset, struct fuse_file_info *file) {
    (void)file;
    forget(&made);
    for (size_t done = 0; done < size;) {
        size_t piece = size - done < limits.write ? size - done : limits.write;
        int error = write_piece(path, bytes + done, piece, (uint64_t)offset + done);
        if (error != 0)
            return done > 0 ? (int)done : error;
        done += piece;
    }
    return (int)size;
}

static int on_truncate(const char *path, off_t size, struct fuse_file_info *file) {
    (void)file;
    if (path == NULL || size > UINT32_MAX)
        return path == NULL ? -ESTALE : -EFBIG;
    forget(&made);
    int error = has_room(0);
    error = error != 0 ? error : answered(volume->truncate(path, (uint32_t)size), path);
    if (error == 0)
        remember(&made, path, (struct seen){0, (uint64_t)size});
    return error;
}

static int on_create(const char *path, mode_t mode, struct fuse_file_info *file) {
    (void)mode, (void)file;
    return make(volume->create, A_FILE, path);
}

static int on_mknod(const char *path, mode_t mode, dev_t device) {
    (void)device;
    return S_ISREG(mode) ? make(volume->create, A_FILE, path) : -EPERM;
}

static int on_mkdir(const char *path, mode_t mode) {
    (void)mode;
    return make(volume->make_directory, A_DIRECTORY, path);
}

static int on_remove(const char *path) {
    forget_below(path);
    return answered(volume->remove(path), path);
}

// `mv` copies what is refused as another device's.
static int rename_free(const char *from, const char *to) { return answered(volume->rename(from, to), to); }

// Whether the file at `from` may take the place of the file at `to`; else why not. A directory replaces nothing.
static int may_replace(const char *from, const char *to) {
    struct seen old, new;
    int error = look(from, &new);
    error = error != 0 ? error : look(to, &old);
    if (error != 0)
        return error;
    if (new.directory)
        return old.directory ? -ENOTEMPTY : -ENOTDIR;
    return old.directory ? -EISDIR : 0;
}

// No request replaces, so what stands at `to` is removed first, by a record of its own. After a loss of power between
// both records the new one is there whole, at `from`. Once there is room for a rename, a removal leaves no less.
static int on_rename(const char *from, const char *to, unsigned flags) {
    if ((flags & ~(unsigned)RENAME_NOREPLACE) != 0)
        return -EINVAL;
    forget_below(from);
    int error = has_room(0);
    error = error != 0 ? error : rename_free(from, to);
    if (error != -EEXIST || (flags & RENAME_NOREPLACE) != 0)
        return error;
    error = may_replace(from, to);
    error = error != 0 ? error : answered(volume->remove(to), to);
    return error != 0 ? error : rename_free(from, to);
}

static int on_statfs(const char *path, struct statvfs *status) {
    (void)path;
    struct room room;
    int error = volume->room(&room);
    if (error != 0)
        return error;
    memset(status, 0, sizeof *status);
    status->f_bsize = status->f_frsize = RECORD;
    status->f_blocks = room.all / RECORD;
    status->f_bfree = (room.all - room.live) / RECORD;
    status->f_bavail = room.live < room.sure ? (room.sure - room.live) / RECORD : 0;
    status->f_namemax = limits.name;
    return 0;
}

// Modes, owners and times aren't kept. These calls are granted all the same: else each copy would end with a fault.
static int on_chmod(const char *path, mode_t mode, struct fuse_file_info *file) {
    (void)path, (void)mode, (void)file;
    return 0;
}

static int on_chown(const char *path, uid_t user, gid_t group, struct fuse_file_info *file) {
    (void)path, (void)user, (void)group, (void)file;
    return 0;
}

static int on_utimens(const char *path, const struct timespec times[2], struct fuse_file_info *file) {
    (void)path, (void)times, (void)file;
    return 0;
}

// A volume has neither links.
static int on_link(const char *from, const char *to) {
    (void)from, (void)to;
    return -EPERM;
}

// A change is answered once it is on the medium, so there is no fsync: the kernel then has nothing to ask for.
static const struct fuse_operations CALLS = {
    .init = on_init,         .getattr = on_getattr, .opendir = on_opendir, .readdir = on_readdir,
    .open = on_open,         .read = on_read,       .write = on_write,     .releasedir = on_releasedir,
    .truncate = on_truncate, .create = on_create,   .mknod = on_mknod,     .mkdir = on_mkdir,
    .unlink = on_remove,     .rmdir = on_remove,    .rename = on_rename,   .statfs = on_statfs,
    .chmod = on_chmod,       .chown = on_chown,     .utimens = on_utimens, .symlink = on_link,
    .link = on_link,
};

enum {
    KEY_HELP, KEY_VERSION, KEY_FOREGROUND, KEY_DEBUG, KEY_ALONE, KEY_READ_ONLY, KEY_SERVE, KEY_SECTOR_SIZE, KEY_SECTORS
};

static const struct fuse_opt OPTIONS[] = {
    FUSE_OPT_KEY("-h", KEY_HELP),           FUSE_OPT_KEY("--help", KEY_HELP),
    FUSE_OPT_KEY("-V", KEY_VERSION),        FUSE_OPT_KEY("--version", KEY_VERSION),
    FUSE_OPT_KEY("-f", KEY_FOREGROUND),     FUSE_OPT_KEY("-d", KEY_DEBUG),
    FUSE_OPT_KEY("-s", KEY_ALONE),          FUSE_OPT_KEY("serve=", KEY_SERVE),
    FUSE_OPT_KEY("sector_size=", KEY_SECTOR_SIZE), FUSE_OPT_KEY("sectors=", KEY_SECTORS),
    FUSE_OPT_KEY("ro", KEY_READ_ONLY),      FUSE_OPT_END,
};

// Takes a word of the call. Answers 0 where it is used up, 1 where libfuse has to see it, and -1 where it is wrong.
static int take_word(void *data, const char *word, int key, struct fuse_args *rest) {
    (void)data, (void)rest;
    switch (key) {
    case KEY_HELP: mounted.help = 1; return 0;
    case KEY_VERSION: mounted.version = 1; return 0;
    case KEY_FOREGROUND: mounted.foreground = 1; return 0;
    case KEY_DEBUG: mounted.foreground = 1; return 1;
    case KEY_ALONE: return 0;
    case KEY_SERVE: mounted.program = strdup(strchr(word, '=') + 1); return 0;
    case KEY_SECTOR_SIZE: mounted.sector_size = strdup(strchr(word, '=') + 1); return 0;
    case KEY_SECTORS: mounted.sectors = strdup(strchr(word, '=') + 1); return 0;
    case KEY_READ_ONLY: mounted.read_only = 1; return 1;
    case FUSE_OPT_KEY_NONOPT: break;
    default:
        if (word[0] != '-')
            return 1;
        tell("unknown option '%s': -h tells which there are", word);
        return -1;
    }
    char **place = mounted.image == NULL ? &mounted.image : &mounted.directory;
    if (*place != NULL) {
        tell("unexpected word '%s': IMAGE and DIR stand there already", word);
        return -1;
    }
    *place = strdup(word);
    return 0;
}

// The jffs_volume beside this program, or the one that was built in the repository around it.
static char *program_beside(void) {
    char here[PATH_MAX], path[PATH_MAX + 64];
    ssize_t length = readlink("/proc/self/exe", here, sizeof here - 1);
    if (length < 0)
        return NULL;
    here[length] = '\0';
    *strrchr(here, '/') = '\0';
    const char *names[] = {"jffs_volume", "../../crates/jffs_volume/out/jffs_volume"};
    for (int at = 0; at < 2; at++) {
        snprintf(path, sizeof path, "%s/%s", here, names[at]);
        if (access(path, X_OK) == 0)
            return strdup(path);
    }
    return NULL;
}

// A chip's device file, as /dev/mtd0.
static int is_chip(void) {
    struct stat found;
    return stat(mounted.image, &found) == 0 && S_ISCHR(found.st_mode);
}

// Looks at the words of the call; 0, or the status to end with.
static int check_words(void) {
    if (mounted.directory == NULL)
        return tell("IMAGE and DIR are wanted: -h tells how it is called"), 2;
    struct stat found;
    char *whole = realpath(mounted.directory, NULL);
    if (whole == NULL || stat(whole, &found) != 0)
        return tell("%s: %s", mounted.directory, strerror(errno)), 2;
    if (!S_ISDIR(found.st_mode))
        return tell("%s: %s", whole, strerror(ENOTDIR)), 2;
    free(mounted.directory);
    mounted.directory = whole;
    if (!is_chip() && mounted.program == NULL && (mounted.program = program_beside()) == NULL)
        return tell("there is no built jffs_volume beside this program: -o serve=PROGRAM says where one is"), 2;
    mounted.shown = (struct stat){.st_uid = getuid(), .st_gid = getgid()};
    clock_gettime(CLOCK_REALTIME, &mounted.shown.st_mtim);
    mounted.shown.st_atim = mounted.shown.st_ctim = mounted.shown.st_mtim;
    return 0;
}

// Goes on in a child. The parent waits until that has mounted, or ends as it ends. Answers where the child says that it
// has, or -1.
static int fork_child(void) {
    int ready[2];
    char byte;
    if (pipe2(ready, O_CLOEXEC) != 0)
        return -1;
    pid_t child = fork();
    if (child < 0)
        return -1;
    if (child == 0) {
        close(ready[0]);
        return ready[1];
    }
    close(ready[1]);
    if (read(ready[0], &byte, 1) == 1)
        _exit(0);
    int status;
    if (waitpid(child, &status, 0) != child)
        _exit(1);
    _exit(WIFEXITED(status) ? WEXITSTATUS(status) : 1);
}

// Leaves the terminal, and lets the parent end.
static void leave_terminal(int ready) {
    int null = open("/dev/null", O_RDWR);
    setsid();
    for (int at = 0; at < 3; at++)
        dup2(null, at);
    openlog("pumpgrape-mount", LOG_PID, LOG_DAEMON);
    mounted.in_background = 1;
    if (chdir("/") != 0 || write(ready, "", 1) != 1)
        tell("%s: %s", mounted.directory, strerror(errno));
    close(ready);
}

// Mounts, answers the kernel's calls until the unmount, and unmounts; the status to end with.
static int serve_kernel(struct fuse_args *args, int ready) {
    char *options = NULL, name[PATH_MAX + 16];
    snprintf(name, sizeof name, "fsname=%s", mounted.image);
    if (fuse_opt_add_opt_escaped(&options, name) != 0 || fuse_opt_add_arg(args, "-o") != 0 ||
        fuse_opt_add_arg(args, options) != 0 || fuse_opt_add_arg(args, "-osubtype=pumpgrape,default_permissions") != 0)
        return tell("out of memory"), 1;
    free(options);
    struct fuse *fuse = fuse_new(args, &CALLS, sizeof CALLS, NULL);
    if (fuse == NULL || fuse_mount(fuse, mounted.directory) != 0)
        return tell("%s can't be mounted", mounted.directory), 1;
    if (ready >= 0)
        leave_terminal(ready);
    fuse_set_signal_handlers(fuse_get_session(fuse));
    int ended = fuse_loop(fuse);
    fuse_remove_signal_handlers(fuse_get_session(fuse));
    fuse_unmount(fuse);
    fuse_destroy(fuse);
    return ended < 0 ? 1 : 0;
}

// Starts what serves the volume, and then the kernel's side; the status to end with.
static int run(struct fuse_args *args) {
    int ready = mounted.foreground ? -1 : fork_child();
    if (ready < 0 && !mounted.foreground)
        return tell("no process can be made: %s", strerror(errno)), 1;
    int status = is_chip() ? start_by_chip(&volume, mounted.image, mounted.read_only, mounted.sector_size,
                                           mounted.sectors)
                           : start_by_serve(&volume, mounted.program, mounted.image, mounted.sector_size);
    if (status != 0)
        return status;
    volume_lost = tell_lost;
    status = serve_kernel(args, ready);
    volume_lost = NULL;
    if (volume->end() != 0) {
        tell("%s: the volume wasn't unmounted in order", mounted.image);
        return 1;
    }
    return status;
}

int main(int count, char **words) {
    struct fuse_args args = FUSE_ARGS_INIT(count, words);
    if (fuse_opt_parse(&args, NULL, OPTIONS, take_word) != 0)
        return 2;
    if (mounted.help || mounted.version) {
        if (mounted.help)
            fputs(HELP, stdout);
        else
            printf("pumpgrape-mount " VERSION ", libfuse %s\n", fuse_pkgversion());
        return fflush(stdout) == 0 ? 0 : 1;
    }
    int status = check_words();
    status = status != 0 ? status : run(&args);
    fuse_opt_free_args(&args);
    return status;
}
