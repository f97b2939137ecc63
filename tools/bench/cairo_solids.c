// Draws the frames of a file of solids with cairo, and writes their pixels to standard output.
#include <cairo.h>
#include <stdint.h>
#include <stdio.h>
#include <stdlib.h>

struct solid {
    int32_t x0, y0, x1, y1;
    uint8_t b, g, r, a;
};

static void draw(cairo_t *to, const struct solid *s) {
    double a = s->a;
    if (s->a == 0) return;
    cairo_set_source_rgba(to, s->r / a, s->g / a, s->b / a, a / 255);
    cairo_rectangle(to, s->x0, s->y0, s->x1 - s->x0, s->y1 - s->y0);
    cairo_fill(to);
}

static void write_rows(cairo_surface_t *surface, int width, int height) {
    cairo_surface_flush(surface);
    const unsigned char *row = cairo_image_surface_get_data(surface);
    for (int y = 0; y < height; y++, row += cairo_image_surface_get_stride(surface)) fwrite(row, 4, width, stdout);
}

int main(int count, char **words) {
    uint32_t head[4];
    FILE *in = count == 2 ? fopen(words[1], "rb") : NULL;
    if (!in || fread(head, 4, 4, in) != 4) return 1;
    int width = head[0], height = head[1], solids = head[2], frames = head[3];
    struct solid *list = malloc(sizeof *list * solids);
    cairo_surface_t *surface = cairo_image_surface_create(CAIRO_FORMAT_ARGB32, width, height);
    cairo_t *to = cairo_create(surface);
    cairo_set_antialias(to, CAIRO_ANTIALIAS_NONE);
    static char buffer[1 << 16];
    setvbuf(stdout, buffer, _IOFBF, sizeof buffer);
    for (int frame = 0; frame < frames; frame++) {
        if (fread(list, sizeof *list, solids, in) != (size_t)solids) return 1;
        cairo_set_source_rgb(to, 1, 1, 1);
        cairo_paint(to);
        for (int k = 0; k < solids; k++) draw(to, list + k);
        write_rows(surface, width, height);
    }
    return fflush(stdout) != 0;
}
