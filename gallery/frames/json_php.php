<?php
// json_decode of PHP.
while (($line = fgets(STDIN)) !== false) {
    json_decode(base64_decode($line));
    echo json_last_error() === JSON_ERROR_NONE ? "taken\n" : "refused\n";
}
