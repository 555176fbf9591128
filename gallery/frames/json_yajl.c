/* yajl_parse and yajl_complete_parse of YAJL, with its default options. */
#include "batch.h"
#include <yajl/yajl_parse.h>

static int taken(const char *text, size_t length) {
    static const yajl_callbacks none;
    yajl_handle parser = yajl_alloc(&none, NULL, NULL);
    yajl_status status = yajl_parse(parser, (const unsigned char *)text, length);
    if (status == yajl_status_ok)
        status = yajl_complete_parse(parser);
    yajl_free(parser);
    return status == yajl_status_ok;
}
