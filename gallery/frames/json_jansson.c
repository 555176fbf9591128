/* json_loadb of Jansson: any value, not an object or an array alone. */
#include "batch.h"
#include <jansson.h>

static int taken(const char *text, size_t length) {
    json_t *value = json_loadb(text, length, JSON_DECODE_ANY, NULL);
    int found = value != NULL;
    json_decref(value);
    return found;
}
