// Walks a folder and reads its .proto files into memory, as `protols serve --root` does, and prints what it has read:
// how many files and how many bytes. The kind of an entry is asked of the listing, and a file is read at its length.
#include <dirent.h>
#include <fcntl.h>
#include <stdio.h>
#include <stdlib.h>
#include <string.h>
#include <sys/stat.h>
#include <unistd.h>

struct file {
    char *path;
    char *text;
    size_t length;
};

static struct file *files;
static size_t file_count, file_room;
static size_t byte_count;

static void *checked(void *memory) {
    if (memory == NULL) {
        fprintf(stderr, "no memory\n");
        exit(3);
    }
    return memory;
}

static char *joined(const char *folder, const char *name) {
    size_t folder_length = strlen(folder), name_length = strlen(name);
    char *path = checked(malloc(folder_length + name_length + 2));
    memcpy(path, folder, folder_length);
    path[folder_length] = '/';
    memcpy(path + folder_length + 1, name, name_length + 1);
    return path;
}

static void read_file(char *path) {
    int descriptor = open(path, O_RDONLY | O_CLOEXEC);
    struct stat found;
    if (descriptor < 0 || fstat(descriptor, &found) < 0) {
        fprintf(stderr, "skipped\n");
        exit(3);
    }
    size_t room = (size_t)found.st_size + 1, length = 0;
    char *text = checked(malloc(room));
    for (;;) {
        ssize_t count = read(descriptor, text + length, room - length);
        if (count <= 0) {
            break;
        }
        length += (size_t)count;
        if (length == room) {
            room *= 2;
            text = checked(realloc(text, room));
        }
    }
    close(descriptor);
    if (file_count == file_room) {
        file_room = file_room == 0 ? 16 : 2 * file_room;
        files = checked(realloc(files, file_room * sizeof *files));
    }
    files[file_count++] = (struct file){path, text, length};
    byte_count += length;
}

static int ends_in_proto(const char *name) {
    size_t length = strlen(name);
    return length >= 6 && memcmp(name + length - 6, ".proto", 6) == 0;
}

static void walk(const char *folder) {
    DIR *listing = opendir(folder);
    if (listing == NULL) {
        fprintf(stderr, "folder\n");
        exit(3);
    }
    for (struct dirent *entry; (entry = readdir(listing)) != NULL;) {
        if (entry->d_name[0] == '.') {
            continue;
        }
        if (entry->d_type == DT_DIR) {
            char *path = joined(folder, entry->d_name);
            walk(path);
            free(path);
        } else if (entry->d_type == DT_REG && ends_in_proto(entry->d_name)) {
            read_file(joined(folder, entry->d_name));
        }
    }
    closedir(listing);
}

int main(int count, char **words) {
    if (count != 2) {
        return 2;
    }
    walk(words[1]);
    printf("%zu files, %zu bytes\n", file_count, byte_count);
    return 0;
}
