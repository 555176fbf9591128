/* json::accept of JSON for Modern C++. */
#include "batch.h"
#include <nlohmann/json.hpp>

static int taken(const char *text, size_t length) {
    return nlohmann::json::accept(text, text + length);
}
