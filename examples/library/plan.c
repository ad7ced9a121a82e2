/* Prints a plan for a definition and a case, as `sagas plan` does. Run it in the root of the
 * repository:
 *
 *   cc -I dist examples/library/plan.c dist/libsagas.a -o plan
 *   ./plan examples/trip.toml examples/trip.case.json
 */
#include <stdio.h>

#include "sagas.h"

static uint8_t definition[SAGAS_MAX_DEFINITION + 1], saga_case[65536], buffer[65536];

static int read_file(const char *path, uint8_t *text, size_t most, size_t *size) {
    FILE *file = fopen(path, "rb");
    if (!file) {
        perror(path);
        return 0;
    }
    *size = fread(text, 1, most, file);
    fclose(file);
    return 1;
}

int main(int count, char **given) {
    size_t used, definition_size, case_size;
    uint32_t status;
    if (count != 3) {
        fputs("usage: plan DEFINITION CASE\n", stderr);
        return 2;
    }
    if (!read_file(given[1], definition, sizeof definition, &definition_size)) return 4;
    if (!read_file(given[2], saga_case, sizeof saga_case, &case_size)) return 4;
    status = sagas_plan(definition, definition_size, saga_case, case_size, buffer, sizeof buffer, &used);
    if (status > SAGAS_INVALID) return (int)status;
    fwrite(buffer, 1, used, status == SAGAS_INVALID ? stderr : stdout);
    return (int)status;
}
