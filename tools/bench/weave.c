/* Weaves four planes of WIDTH by HEIGHT bytes into pixels and writes them, FRAMES times, to standard output. */
#include <stdint.h>
#include <stdlib.h>
#include <unistd.h>

int main(int count, char **words) {
    if (count != 4) return 2;
    size_t pixels = (size_t)atoi(words[1]) * (size_t)atoi(words[2]);
    int frames = atoi(words[3]);
    uint8_t *planes[4];
    for (int plane = 0; plane < 4; plane++) {
        planes[plane] = malloc(pixels);
        for (size_t at = 0; at < pixels; at++) planes[plane][at] = (uint8_t)(at * (plane + 3));
    }
    uint8_t *out = malloc(4 * pixels);
    for (int frame = 0; frame < frames; frame++) {
        const uint8_t *b = planes[0], *g = planes[1], *r = planes[2], *a = planes[3];
        for (size_t at = 0; at < pixels; at++) {
            out[4 * at] = b[at];
            out[4 * at + 1] = g[at];
            out[4 * at + 2] = r[at];
            out[4 * at + 3] = a[at];
        }
        planes[0][0]++;
        for (size_t done = 0; done < 4 * pixels;) {
            ssize_t now = write(1, out + done, 4 * pixels - done);
            if (now <= 0) return 1;
            done += (size_t)now;
        }
    }
    return 0;
}
