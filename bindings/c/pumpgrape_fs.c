#include "pumpgrape_fs.h"

// The longest name, and a null byte.
enum { NAME_SIZE = 21 };

static size_t length_of(const char *text) {
    size_t length = 0;
    while (text[length] != 0)
        length++;
    return length;
}

static bool synced(const pgfs_driver *driver) { return driver->sync == NULL || driver->sync(driver->context) == 0; }

static bool blocks_fit(const pgfs_driver *driver) {
    return driver->block > 0 && driver->sector_size % driver->block == 0;
}

// Of a sector of several blocks the last one is erased first. Its first block begins with the magic that was cleared
// before the erase, so while the other blocks go the sector is known as doomed, whatever they hold; and once the first
// one goes, nothing else of the sector is left.
static bool erased(const pgfs_driver *driver, uint32_t at) {
    for (uint32_t left = driver->sector_size; left > 0; left -= driver->block)
        if (driver->erase(driver->context, at + left - driver->block, driver->block) != 0 || !synced(driver))
            return false;
    return true;
}

static bool carried_out(const pgfs_driver *driver, const pg_call *call) {
    if (call->erase)
        return erased(driver, call->at);
    return driver->program(driver->context, call->at, driver->buffer, call->len) == 0 && synced(driver);
}

// Carries out all that is left; then the answer is the change's, unless the driver failed.
static uint32_t settle(pgfs *fs, uint32_t answer) {
    const pgfs_driver *driver = fs->driver;
    pg_call call;
    while (pg_next_call(&fs->volume, &call, driver->buffer, driver->sector_size / 4) == PG_DONE) {
        if (!carried_out(driver, &call)) {
            pg_call_failed(&fs->volume);
            return PG_DEVICE;
        }
        pg_carried_out(&fs->volume);
    }
    return answer;
}

uint32_t pgfs_format(const pgfs_driver *driver) {
    uint32_t end = driver->sectors * driver->sector_size;
    if (!blocks_fit(driver))
        return PG_GEOMETRY;
    for (uint32_t at = 0; at < end; at += driver->block)
        if (driver->erase(driver->context, at, driver->block) != 0)
            return PG_DEVICE;
    return synced(driver) ? PG_DONE : PG_DEVICE;
}

uint32_t pgfs_open(pgfs *fs, const pgfs_driver *driver) {
    uint32_t len = driver->sectors * driver->sector_size;
    *fs = (pgfs){.driver = driver};
    if (!blocks_fit(driver))
        return PG_GEOMETRY;
    if (driver->buffer_len < len)
        return PG_BUFFER_SHORT;
    if (driver->read(driver->context, 0, driver->buffer, len) != 0)
        return PG_DEVICE;
    return pg_open(driver->buffer, len, driver->sector_size, &fs->volume, &fs->refusal);
}

uint32_t pgfs_mount(pgfs *fs, const pgfs_driver *driver) {
    uint32_t code = pgfs_open(fs, driver);
    if (code != PG_DONE)
        return code;
    code = settle(fs, PG_DONE);
    if (code != PG_DONE)
        pgfs_close(fs);
    return code;
}

void pgfs_close(pgfs *fs) { pg_close(fs->volume); }

uint32_t pgfs_unmount(pgfs *fs) {
    uint32_t code = settle(fs, pg_unmount(&fs->volume));
    pgfs_close(fs);
    return code;
}

uint32_t pgfs_create(pgfs *fs, const char *path) {
    return settle(fs, pg_create(&fs->volume, path, length_of(path)));
}

uint32_t pgfs_mkdir(pgfs *fs, const char *path) { return settle(fs, pg_mkdir(&fs->volume, path, length_of(path))); }

uint32_t pgfs_remove(pgfs *fs, const char *path) {
    return settle(fs, pg_remove(&fs->volume, path, length_of(path)));
}

uint32_t pgfs_rename(pgfs *fs, const char *from, const char *to) {
    return settle(fs, pg_rename(&fs->volume, from, length_of(from), to, length_of(to)));
}

uint32_t pgfs_truncate(pgfs *fs, const char *path, uint32_t size) {
    return settle(fs, pg_truncate(&fs->volume, path, length_of(path), size));
}

uint32_t pgfs_write(pgfs *fs, const char *path, uint32_t offset, const void *bytes, size_t len, size_t *written) {
    const uint8_t *from = bytes;
    pg_longest longest;
    uint32_t code = pg_longest_of(&fs->volume, &longest);
    *written = 0;
    while (code == PG_DONE) {
        size_t left = len - *written, piece = left < longest.write ? left : longest.write;
        uint32_t at = offset + (uint32_t)*written;
        code = settle(fs, pg_write(&fs->volume, path, length_of(path), at, from + *written, piece));
        *written += code == PG_DONE ? piece : 0;
        if (*written == len)
            break;
    }
    return code;
}

uint32_t pgfs_read(pgfs *fs, const char *path, uint32_t offset, void *buffer, size_t len, size_t *count) {
    return pg_read(&fs->volume, path, length_of(path), offset, buffer, len, count);
}

uint32_t pgfs_stat(pgfs *fs, const char *path, pg_sight *sight) {
    return pg_look(&fs->volume, path, length_of(path), sight);
}

uint32_t pgfs_list(pgfs *fs, const char *path, pgfs_entry entry, void *context) {
    char name[NAME_SIZE];
    size_t length = 0;
    pg_sight sight;
    uint32_t code = PG_DONE;
    for (uint32_t number = 0; code == PG_DONE; number++) {
        code = pg_entry(&fs->volume, path, length_of(path), number, name, NAME_SIZE - 1, &length, &sight);
        name[length] = 0;
        if (code == PG_DONE && !entry(context, name, &sight))
            return PG_DONE;
    }
    return code == PG_NOTHING ? PG_DONE : code;
}

uint32_t pgfs_usage(pgfs *fs, pg_usage *usage) { return pg_usage_of(&fs->volume, usage); }

uint32_t pgfs_clean(pgfs *fs) {
    bool wants = false;
    uint32_t code = pg_wants_cleaning(&fs->volume, &wants);
    if (code != PG_DONE)
        return code;
    return wants ? settle(fs, pg_clean(&fs->volume)) : PG_NOTHING;
}
