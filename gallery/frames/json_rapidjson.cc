/* RapidJSON's Document, with its default flags and the check of the encoding. */
#include "batch.h"
#include <rapidjson/document.h>

static int taken(const char *text, size_t length) {
    rapidjson::Document document;
    document.Parse<rapidjson::kParseValidateEncodingFlag>(text, length);
    return !document.HasParseError();
}
