/* Which release an archive is of: release/run adds this to libgateway.a. */
#include "../include/gateway.h"

const char gateway_version[] = GATEWAY_VERSION;
const char gateway_commit[] = COMMIT;
