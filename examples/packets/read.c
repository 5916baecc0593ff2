/* Reads each packet that is named on the command line with the proved reader, and prints a line of it: its name, and ANSWER,START,B,N with the ids. */
#include <stdio.h>
#include <string.h>

#include "packets.h"

int main(int count, char **names) {
    for (int k = 1; k < count; k++) {
        uint8_t packet[1024];
        FILE *file = fopen(names[k], "rb");
        if (file == NULL) {
            perror(names[k]);
            return 1;
        }
        size_t length = fread(packet, 1, sizeof packet, file);
        fclose(file);
        struct packet_header read = packet_read(packet, length);
        const char *slash = strrchr(names[k], '/');
        printf("%s %u,%u,%u,%u", slash == NULL ? names[k] : slash + 1, (unsigned)read.answer, (unsigned)read.start, (unsigned)read.slots,
               (unsigned)read.n);
        for (size_t id = 0; id < packet_ids_length(packet, length) / 2; id++) {
            printf(",%u", (unsigned)packet_id(packet, id));
        }
        printf("\n");
    }
    return 0;
}
