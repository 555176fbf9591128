/* cJSON_ParseWithLengthOpts of cJSON, where nothing may stand behind the value. */
#include "batch.h"
#include <cjson/cJSON.h>

static int taken(const char *text, size_t length) {
    cJSON *value = cJSON_ParseWithLengthOpts(text, length + 1, NULL, 1);
    int found = value != NULL;
    cJSON_Delete(value);
    return found;
}
