/* A guard's line, for the examples of documents: line TEXT NODES writes the nodes that are read into the file NODES and prints the line that is written of them, or
 * prints the number of the refusal. */
#include "monuvaleck.h"

#include <stdio.h>
#include <string.h>

int main(int argc, char **argv)
{
    static uint8_t nodes[16 * MONUVALECK_LONGEST_LINE], text[MONUVALECK_LONGEST_LINE];
    if (argc != 3) {
        fputs("line TEXT NODES\n", stderr);
        return 2;
    }
    int32_t count = guard_read((const uint8_t *)argv[1], strlen(argv[1]), nodes, sizeof nodes);
    int32_t length = count < 0 ? count : guard_write(nodes, 16 * (size_t)count, text, sizeof text);
    if (length < 0) {
        printf("%d\n", (int)-length);
        return 0;
    }
    FILE *file = fopen(argv[2], "wb");
    if (file == NULL || fwrite(nodes, 16, (size_t)count, file) != (size_t)count || fclose(file) != 0) {
        perror(argv[2]);
        return 2;
    }
    printf("%.*s\n", (int)length, (const char *)text);
    return 0;
}
