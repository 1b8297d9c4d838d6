/*
 * Prints a PNG picture as PPM, read by libpng: what is in a picture that the viewer
 * wrote.
 *
 *     png FILE
 */
#include <png.h>
#include <stdio.h>
#include <stdlib.h>
#include <string.h>

int main(int count, char **words)
{
    png_image image;
    size_t length;
    char *bytes;
    int done;
    memset(&image, 0, sizeof image);
    image.version = PNG_IMAGE_VERSION;
    if (count != 2 || !png_image_begin_read_from_file(&image, words[1]))
        return 1;
    image.format = PNG_FORMAT_RGB;
    length = PNG_IMAGE_SIZE(image);
    bytes = malloc(length);
    done = bytes && png_image_finish_read(&image, NULL, bytes, 0, NULL) &&
           printf("P6\n%lu %lu\n255\n", (unsigned long)image.width, (unsigned long)image.height) > 0 &&
           fwrite(bytes, 1, length, stdout) == length;
    free(bytes);
    return !done;
}
