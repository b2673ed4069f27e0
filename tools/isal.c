/* usage: isal vandermonde|cauchy K P print
          isal vandermonde|cauchy K P encode SIZE <DATA >CODING

   Codes over GF(256) as ISA-L makes them, for tools/guide-check and docs/guide.md. `print` writes the coding bit matrix in
   jerasure's form, for devices whose bytes are sliced into their eight bits. `encode` reads K devices of SIZE bytes, one
   behind the other, and writes the P others. Status 2: wrong words; 3: a read or a write failed.

   It is built where Debian's libisal-dev is: cc -o isal tools/isal.c -lisal */
#include <isa-l/erasure_code.h>
#include <stdio.h>
#include <stdlib.h>
#include <string.h>

enum { MOST_DEVICES = 128, TABLE = 32, BITS = 8 };

/* Row r of coding device l, column 8 * j + b: bit r of the coefficient of data device j times the byte 1 << b. */
static int print(int k, int p, unsigned char *coefficients) {
    for (int row = 0; row < p * BITS; row++) {
        if (row && row % BITS == 0) puts("");
        for (int column = 0; column < k * BITS; column++) {
            unsigned char coefficient = coefficients[row / BITS * k + column / BITS];
            if (column && column % BITS == 0) putchar(' ');
            putchar('0' + (gf_mul(coefficient, 1 << column % BITS) >> row % BITS & 1));
        }
        puts("");
    }
    return fflush(stdout) ? 3 : 0;
}

static int encode(int k, int p, unsigned char *coefficients, int size) {
    unsigned char *bytes = calloc(k + p, size), *tables = malloc((size_t)TABLE * k * p), *devices[MOST_DEVICES];
    if (!bytes || !tables || fread(bytes, size, k, stdin) != (size_t)k) return 3;
    for (int device = 0; device < k + p; device++) devices[device] = bytes + (size_t)device * size;
    ec_init_tables(k, p, coefficients, tables);
    ec_encode_data(size, k, p, tables, devices, devices + k);
    return fwrite(devices[k], size, p, stdout) == (size_t)p && !fflush(stdout) ? 0 : 3;
}

int main(int count, char **words) {
    unsigned char matrix[MOST_DEVICES * MOST_DEVICES];
    int k = count > 4 ? atoi(words[2]) : 0, p = count > 4 ? atoi(words[3]) : 0;
    int fits = k > 0 && p > 0 && k < MOST_DEVICES && p < MOST_DEVICES && k + p <= MOST_DEVICES;
    if (fits && !strcmp(words[1], "vandermonde")) gf_gen_rs_matrix(matrix, k + p, k);
    else if (fits && !strcmp(words[1], "cauchy")) gf_gen_cauchy1_matrix(matrix, k + p, k);
    else fits = 0;
    if (fits && count == 5 && !strcmp(words[4], "print")) return print(k, p, matrix + k * k);
    if (fits && count == 6 && !strcmp(words[4], "encode") && atoi(words[5]) > 0)
        return encode(k, p, matrix + k * k, atoi(words[5]));
    fputs("usage: isal vandermonde|cauchy K P print | encode SIZE\n", stderr);
    return 2;
}
