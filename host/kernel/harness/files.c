/* The files that are launched. They live on a tmpfs and on an ext4 image in a mount namespace of the harness's own, so that no other process
 * ever sees them and all of it is gone when the harness is, however it ends. */
#define _GNU_SOURCE
#include <errno.h>
#include <fcntl.h>
#include <linux/loop.h>
#include <stdio.h>
#include <stdlib.h>
#include <string.h>
#include <sys/ioctl.h>
#include <sys/mount.h>
#include <sys/stat.h>
#include <sys/wait.h>
#include <sys/xattr.h>
#include <unistd.h>

#include "harness.h"

/* The tmpfs hides what is at this directory, in the harness's namespace alone. Nothing is written to the directory itself. */
#define PLACE "/tmp"
#define LAUNCHED PLACE "/files/launched"
#define ATTRIBUTE "security.capability"

/* The image has the run's own name, and so has the tmpfs: by these it could be told from outside that something is left. */
static char image[LONGEST_PATH];

/* Each place has a second way in, by a nosuid bind mount. */
static void mount_nosuid(const char *place, const char *nosuid)
{
    if (mount(place, nosuid, NULL, MS_BIND, NULL) != 0 || mount(NULL, nosuid, NULL, MS_REMOUNT | MS_BIND | MS_NOSUID, NULL) != 0) {
        give_up(nosuid);
    }
}

static void copy_self(const char *to)
{
    static char buffer[1 << 16];
    int from = open("/proc/self/exe", O_RDONLY | O_CLOEXEC), copy = open(to, O_WRONLY | O_CREAT | O_EXCL | O_CLOEXEC, 0755);
    if (from == -1 || copy == -1) {
        give_up(to);
    }
    for (ssize_t length; (length = read(from, buffer, sizeof buffer)) != 0;) {
        if (length < 0 || write(copy, buffer, (size_t)length) != length) {
            give_up(to);
        }
    }
    close(from);
    close(copy);
}

void prepare_places(const char *tag)
{
    static const char *const directories[] = {PLACE "/files", PLACE "/files-nosuid", PLACE "/image", PLACE "/image-nosuid"};
    snprintf(image, sizeof image, PLACE "/%s", tag);
    umask(022);
    if (mount(NULL, "/", NULL, MS_REC | MS_PRIVATE, NULL) != 0 || mount(tag, PLACE, "tmpfs", 0, "mode=0755") != 0) {
        give_up("mount");
    }
    for (size_t i = 0; i < sizeof directories / sizeof *directories; i++) {
        if (mkdir(directories[i], 0755) != 0) {
            give_up(directories[i]);
        }
    }
    copy_self(LAUNCHED);
    mount_nosuid(PLACE "/files", PLACE "/files-nosuid");
}

/* Runs a program of e2fsprogs with its output in a file of the tmpfs. */
static void run(char *const arguments[])
{
    pid_t child = fork();
    if (child == 0) {
        setenv("PATH", "/usr/sbin:/sbin:/usr/bin:/bin", 1);
        if (freopen(PLACE "/log", "a", stdout) != NULL && dup2(1, 2) == 2) {
            execvp(arguments[0], arguments);
        }
        _exit(127);
    }
    int status;
    if (child == -1 || waitpid(child, &status, 0) != child) {
        give_up(arguments[0]);
    }
    if (status != 0) {
        errno = WIFEXITED(status) && WEXITSTATUS(status) == 127 ? ENOENT : EIO;
        give_up(arguments[0]);
    }
}

static FILE *create(const char *name)
{
    FILE *file = fopen(name, "wxe");
    if (file == NULL) {
        give_up(name);
    }
    return file;
}

/* The commands for debugfs, which writes an attribute's bytes as they are, whatever the kernel would say to them. */
static void write_commands(const struct file *files, uint32_t count)
{
    FILE *commands = create(PLACE "/commands");
    for (uint32_t i = 0; i < count; i++) {
        char name[LONGEST_PATH];
        snprintf(name, sizeof name, PLACE "/value-%u", i);
        FILE *value = create(name);
        fwrite(files[i].attribute, 1, files[i].attribute_length, value);
        fclose(value);
        fprintf(commands, "write " LAUNCHED " %u\n", i);
        fprintf(commands, "set_inode_field %u uid %u\nset_inode_field %u gid %u\n", i, files[i].owner, i, files[i].group);
        fprintf(commands, "set_inode_field %u mode 0100755\nea_set -f %s %u " ATTRIBUTE "\n", i, name, i);
    }
    fclose(commands);
}

/* Attaches the image to a free loop device that lets go of it when it is unmounted. Another process may be faster to take the free one. */
static int attach_image(char *device, size_t size)
{
    int control = open("/dev/loop-control", O_RDWR | O_CLOEXEC), backing = open(image, O_RDWR | O_CLOEXEC), loop = -1;
    struct loop_config configuration = {.fd = (uint32_t)backing, .info.lo_flags = LO_FLAGS_AUTOCLEAR};
    if (control == -1 || backing == -1) {
        give_up("/dev/loop-control");
    }
    do {
        if (loop != -1) {
            close(loop);
        }
        snprintf(device, size, "/dev/loop%d", ioctl(control, LOOP_CTL_GET_FREE));
        loop = open(device, O_RDWR | O_CLOEXEC);
    } while (loop != -1 && ioctl(loop, LOOP_CONFIGURE, &configuration) != 0 && errno == EBUSY);
    close(control);
    close(backing);
    return loop;
}

/* A loop device that could not be attached cannot be mounted either. */
static void mount_image(void)
{
    char device[LONGEST_PATH];
    int loop = attach_image(device, sizeof device);
    if (loop == -1 || mount(device, PLACE "/image", "ext4", 0, NULL) != 0) {
        give_up(device);
    }
    close(loop);
    mount_nosuid(PLACE "/image", PLACE "/image-nosuid");
}

/* debugfs does not tell by its status whether a command failed. */
static void check_image(const struct file *files, uint32_t count)
{
    for (uint32_t i = 0; i < count; i++) {
        char name[LONGEST_PATH], attributes[256];
        struct stat found;
        snprintf(name, sizeof name, PLACE "/image/%u", i);
        ssize_t length = listxattr(name, attributes, sizeof attributes);
        if (stat(name, &found) != 0 || found.st_uid != files[i].owner || found.st_gid != files[i].group || found.st_mode != 0100755 ||
            length != sizeof ATTRIBUTE || memcmp(attributes, ATTRIBUTE, sizeof ATTRIBUTE) != 0) {
            give_up(name);
        }
    }
}

void make_image(const struct file *files, uint32_t count)
{
    struct stat self;
    if (stat(LAUNCHED, &self) != 0) {
        give_up(LAUNCHED);
    }
    /* Room for the files and, generously, for what ext4 keeps beside them. */
    off_t size = (off_t)count * (self.st_size + (1 << 14)) * 5 / 4 + (8 << 20);
    int empty = open(image, O_WRONLY | O_CREAT | O_EXCL | O_CLOEXEC, 0600);
    if (empty == -1 || ftruncate(empty, size) != 0) {
        give_up(image);
    }
    close(empty);
    write_commands(files, count);
    run((char *[]){"mkfs.ext4", "-q", "-F", "-O", "^has_journal", "-I", "256", image, NULL});
    run((char *[]){"debugfs", "-w", "-f", PLACE "/commands", image, NULL});
    mount_image();
    check_image(files, count);
}

/* chown takes the attribute and the set-ID bits away, so it comes first. */
static void change_file(const struct file *file)
{
    if (chown(LAUNCHED, file->owner, file->group) != 0 || chmod(LAUNCHED, file->mode) != 0) {
        give_up(LAUNCHED);
    }
    if (file->attribute_length != 0 && setxattr(LAUNCHED, ATTRIBUTE, file->attribute, file->attribute_length, 0) != 0) {
        give_up("setxattr");
    }
}

void prepare_file(const struct file *file, char *path)
{
    const char *way = file->nosuid ? "-nosuid" : "";
    if (file->image == NONE) {
        change_file(file);
        snprintf(path, LONGEST_PATH, PLACE "/files%s/launched", way);
        return;
    }
    snprintf(path, LONGEST_PATH, PLACE "/image/%u", file->image);
    if (chmod(path, file->mode) != 0) {
        give_up(path);
    }
    snprintf(path, LONGEST_PATH, PLACE "/image%s/%u", way, file->image);
}
