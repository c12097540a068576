/* Handlers as image files. */
#include <stdint.h>

/* Sends each message on to process 2; behind it, gives each message out. */
static const uint8_t RELAY_AND_ECHO[] = "SBI1\0\0\x04\0"
                                        "\xbf\x12\0\0\0\0\0\0"
                                        "\xb7\x01\0\0\x02\0\0\0"
                                        "\x85\0\0\0\x01\0\0\0"
                                        "\x95\0\0\0\0\0\0\0"
                                        "SBI1\0\0\x02\0"
                                        "\x85\0\0\0\x02\0\0\0"
                                        "\x95\0\0\0\0\0\0\0";

/* Adds the first word of a message to the first word of its state, of 8 bytes or more. */
static const uint8_t ADDER[] = "SBI1\x08\0\x06\0"
                               "\x79\x13\0\0\0\0\0\0"
                               "\x79\x24\0\0\0\0\0\0"
                               "\x0f\x34\0\0\0\0\0\0"
                               "\x7b\x42\0\0\0\0\0\0"
                               "\xb7\x00\0\0\0\0\0\0"
                               "\x95\x00\0\0\0\0\0\0";

enum { RELAY_SIZE = 40, ECHO_SIZE = 24, ADDER_SIZE = 56 };
