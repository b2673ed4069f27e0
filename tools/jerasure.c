/* usage: jerasure CODE K M W print
          jerasure CODE K M W encode PACKET SIZE <DATA >CODING
          jerasure CODE K M W decode PACKET SIZE LOST.. <DEVICES >DEVICES

   Codes as jerasure makes them, for tools/guide-check and docs/guide.md. CODE is liberation, blaum_roth, liber8tion,
   cauchy (the good one), reed_sol_r6, or a file whose digits 0 and 1 are the coding bit matrix. `print` writes that
   matrix as jerasure prints it. Devices of SIZE bytes come and go one behind the other, data devices first: `encode`
   reads those of data and writes the others; `decode` reads and writes all of them, with those of the numbers LOST made
   again. Status 1: jerasure makes no such code, or does not decode; 2: wrong words; 3: a read or a write failed.

   It is built where Debian's libjerasure-dev is:
   cc -I/usr/include/jerasure -o jerasure tools/jerasure.c -lJerasure */
#include <cauchy.h>
#include <jerasure.h>
#include <liberation.h>
#include <reed_sol.h>
#include <stdio.h>
#include <stdlib.h>
#include <string.h>

enum { MOST_DEVICES = 128 };

struct code {
    int k, m, w, *bits;
};

/* The digits 0 and 1 of a file, as many as wanted, or NULL. */
static int *read_bits(const char *name, size_t wanted) {
    FILE *file = fopen(name, "r");
    int *bits = malloc(wanted * sizeof *bits), next = 0;
    size_t got = 0;
    if (!file || !bits) return NULL;
    while (got < wanted && (next = getc(file)) != EOF)
        if (next == '0' || next == '1') bits[got++] = next - '0';
    fclose(file);
    return got == wanted ? bits : NULL;
}

static int *coding_bits(const char *name, int k, int m, int w) {
    int *matrix;
    if (!strcmp(name, "liberation")) return m == 2 ? liberation_coding_bitmatrix(k, w) : NULL;
    if (!strcmp(name, "blaum_roth")) return m == 2 ? blaum_roth_coding_bitmatrix(k, w) : NULL;
    if (!strcmp(name, "liber8tion")) return m == 2 && w == 8 ? liber8tion_coding_bitmatrix(k) : NULL;
    if (!strcmp(name, "cauchy")) matrix = cauchy_good_general_coding_matrix(k, m, w);
    else if (!strcmp(name, "reed_sol_r6")) matrix = m == 2 ? reed_sol_r6_coding_matrix(k, w) : NULL;
    else return read_bits(name, (size_t)m * w * k * w);
    return matrix ? jerasure_matrix_to_bitmatrix(k, m, w, matrix) : NULL;
}

/* Encodes, or makes the erased devices again where there are any. */
static int work(struct code *code, int packet, int size, int *erased) {
    int read = erased ? code->k + code->m : code->k, first = erased ? 0 : code->k;
    size_t all = (size_t)(code->k + code->m) * size;
    char *bytes = calloc(all, 1), *devices[MOST_DEVICES];
    if (!bytes || fread(bytes, size, read, stdin) != (size_t)read) return 3;
    for (int device = 0; device < code->k + code->m; device++) devices[device] = bytes + (size_t)device * size;
    if (!erased)
        jerasure_bitmatrix_encode(code->k, code->m, code->w, code->bits, devices, devices + code->k, size, packet);
    else if (jerasure_bitmatrix_decode(code->k, code->m, code->w, code->bits, 0, erased, devices, devices + code->k,
                                       size, packet) < 0)
        return 1;
    size_t written = all - (size_t)first * size;
    return fwrite(devices[first], 1, written, stdout) == written && !fflush(stdout) ? 0 : 3;
}

static int usage(void) {
    fputs("usage: jerasure CODE K M W print | encode PACKET SIZE | decode PACKET SIZE LOST..\n", stderr);
    return 2;
}

int main(int count, char **words) {
    int erased[MOST_DEVICES + 1], lost = 0;
    if (count < 6 || count > MOST_DEVICES) return usage();
    struct code code = {atoi(words[2]), atoi(words[3]), atoi(words[4]), NULL};
    if (code.k < 1 || code.m < 1 || code.w < 1 || code.k + code.m > MOST_DEVICES || code.w > 32) return usage();
    code.bits = coding_bits(words[1], code.k, code.m, code.w);
    if (!code.bits) return 1;
    if (!strcmp(words[5], "print")) {
        jerasure_print_bitmatrix(code.bits, code.m * code.w, code.k * code.w, code.w);
        return fflush(stdout) ? 3 : 0;
    }
    int packet = count > 7 ? atoi(words[6]) : 0, size = count > 7 ? atoi(words[7]) : 0;
    if (packet < 8 || size < 1 || packet % 8 || size % (code.w * packet)) return usage();
    if (!strcmp(words[5], "encode") && count == 8) return work(&code, packet, size, NULL);
    if (strcmp(words[5], "decode") || count < 9) return usage();
    while (lost < count - 8) {
        erased[lost] = atoi(words[8 + lost]);
        if (erased[lost] < 0 || erased[lost] >= code.k + code.m) return usage();
        lost++;
    }
    erased[lost] = -1;
    return work(&code, packet, size, erased);
}
