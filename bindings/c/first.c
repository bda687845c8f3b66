// A first program: flash in memory, one file written, and all of it read again after a mount.
#include <stdio.h>
#include <string.h>

#include "pumpgrape.h"

static uint8_t flash[6 * 1024];

// Carries out the calls that are left. On a chip this loop is its erase and its program.
static void carry_out(pg_volume *volume) {
    pg_call call;
    uint8_t bytes[1024 / 4];
    while (pg_next_call(volume, &call, bytes, sizeof bytes) == PG_DONE) {
        for (uint32_t at = 0; at < call.len; at++)
            flash[call.at + at] = call.erase ? 0xff : flash[call.at + at] & bytes[at];
        pg_carried_out(volume);
    }
}

int main(void) {
    pg_volume volume;
    pg_refusal refusal;
    memset(flash, 0xff, sizeof flash);
    if (pg_open(flash, sizeof flash, 1024, &volume, &refusal) != PG_DONE)
        return 1;
    pg_create(&volume, "/greeting", 9);
    carry_out(&volume);
    pg_write(&volume, "/greeting", 9, 0, "hello", 5);
    carry_out(&volume);
    pg_close(volume); // as if the power were lost here

    uint8_t text[16];
    size_t count = 0;
    if (pg_open(flash, sizeof flash, 1024, &volume, &refusal) != PG_DONE)
        return 1;
    carry_out(&volume); // an erase may have been cut off
    pg_read(&volume, "/greeting", 9, 0, text, sizeof text, &count);
    printf("%.*s\n", (int)count, (char *)text);
    pg_close(volume);
    return 0;
}
