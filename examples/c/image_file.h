/* An image file, read for the examples. */
#ifndef IMAGE_FILE_H
#define IMAGE_FILE_H

#include <stdio.h>
#include <stdlib.h>

#include "zenkorv.h"

/* One byte more than any image has, so that a file that is too long is refused. */
enum { IMAGE_ROOM = ZENKORV_LONGEST_IMAGE + 1 };

/* Reads at most IMAGE_ROOM bytes of a file, and gives their number. */
static inline size_t image_file(const char *path, uint8_t *image)
{
    FILE *file = fopen(path, "rb");
    if (file == NULL) {
        perror(path);
        exit(EXIT_FAILURE);
    }
    size_t length = fread(image, 1, IMAGE_ROOM, file);
    fclose(file);
    return length;
}

#endif
