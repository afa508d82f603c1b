/* Prints each link of the block in a file. */
#include <kombilad.h>

#include <stdio.h>
#include <stdlib.h>

static void print(const kombilad_cid *cid) {
    char text[174] = "";
    size_t needed;
    if (kombilad_cid_to_text(cid->bytes, cid->len, KOMBILAD_BASE_USUAL, (uint8_t *)text,
                             sizeof text - 1, &needed) == KOMBILAD_OK)
        puts(text);
}

int main(int count, char **words) {
    static uint8_t block[1 << 20];
    FILE *file = count == 2 ? fopen(words[1], "rb") : NULL;
    if (file == NULL) return 2;
    size_t len = fread(block, 1, sizeof block, file);
    fclose(file);

    // [begin: links]
    kombilad_cid links[100];
    size_t found, offset;
    uint32_t status = kombilad_links(block, len, KOMBILAD_LEVELS, KOMBILAD_VALUES, links, 100,
                                     &found, &offset);
    // [end: links]
    if (status != KOMBILAD_OK) {
        uint8_t text[80];
        kombilad_status_text(status, text, sizeof text, &found);
        fprintf(stderr, "%.*s\n", (int)found, (char *)text);
        return 1;
    }
    for (size_t at = 0; at < found; at++) print(&links[at]);
    return 0;
}
