/* A host, in C or C++, that links both archives of an installed release. It says version and commit of the archive,
 * which is of the header's version. */
#include <gateway.h>
#include <inspect.h>

#include <stdint.h>
#include <stdio.h>
#include <string.h>

int main(void)
{
    static uint8_t records[GATEWAY_RECORDS], reading[INSPECT_READING];
    const uint8_t root[] = { '1', '.', '9' };
    char numbers[32];
    snprintf(numbers, sizeof numbers, "%d.%d.%d", GATEWAY_VERSION_MAJOR, GATEWAY_VERSION_MINOR, GATEWAY_VERSION_PATCH);
    if (strcmp(gateway_version, GATEWAY_VERSION) != 0 || strcmp(gateway_version, numbers) != 0)
        return 1;
    if (gateway_start(records, sizeof records, root, sizeof root, 1, 1) != GATEWAY_DONE)
        return 1;
    if (inspect_data_set(records, 0, GATEWAY_IMPLICIT, reading, sizeof reading) != 0)
        return 1;
    printf("%s %s\n", gateway_version, gateway_commit);
    return 0;
}
