/* Prints the units of a stream: offset, size, type, layer id and temporal id. */
#include "fezhalum.h"

#include <inttypes.h>
#include <stdio.h>

int main(int argc, char **argv) {
    if (argc != 2) return fprintf(stderr, "usage: units FILE\n"), 2;
    FILE *file = fopen(argv[1], "rb");
    if (!file || fseek(file, 0, SEEK_END)) return fprintf(stderr, "units: %s can't be read\n", argv[1]), 3;
    long length = ftell(file);
    rewind(file);
    uint8_t *bytes = malloc(length > 0 ? (size_t)length : 1);
    if (!bytes || length < 0) return fprintf(stderr, "units: no memory\n"), 5;
    size_t size = fread(bytes, 1, (size_t)length, file), at = 0;
    fclose(file);
    fezhalum_unit unit;
    uint32_t status;
    while ((status = fezhalum_next_unit(bytes, size, at, &unit)) == FEZHALUM_OK) {
        printf("unit %" PRIu64 " size %" PRIu64 " type %" PRIu32 " layer %" PRIu32 " temporal %" PRIu32 "\n",
            unit.offset, unit.size, unit.nal_unit_type, unit.layer_id, unit.temporal_id);
        at = (size_t)unit.next;
    }
    free(bytes);
    if (status != FEZHALUM_NO_UNIT) printf("refused: %s\n", fezhalum_status_string(status));
    return status != FEZHALUM_NO_UNIT;
}
