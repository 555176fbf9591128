/* json_tokener_parse_ex of json-c, with its default flags, or those that FLAGS names. */
#include "batch.h"
#include <json-c/json.h>

#ifndef FLAGS
#define FLAGS 0
#endif

static int taken(const char *text, size_t length) {
    struct json_tokener *tokener = json_tokener_new();
    struct json_object *value;
    int found;
    json_tokener_set_flags(tokener, FLAGS);
    /* the 0 behind the text ends a number that stands at its end */
    value = json_tokener_parse_ex(tokener, text, (int)length + 1);
    found = json_tokener_get_error(tokener) == json_tokener_success && json_tokener_get_parse_end(tokener) >= length;
    json_object_put(value);
    json_tokener_free(tokener);
    return found;
}
