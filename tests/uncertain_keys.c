#include "uncertain_keys.h"
#include <string.h>

const char uncertain_codes[] = "ACGTRYMKSWBDHVNacgtrymkswbdhvn";

const uncertain_key uncertain_keys[] = {
    {"", 0, 0},
    {"N", 1, 1},         /* a single base is its own reversal, whatever it is */
    {"NN", 2, 1},        /* bases that are chosen by themselves may differ */
    {"ANT", 2, 1},       /* AA or TT; A and T never agree */
    {"ARA", 3, 3},       /* the middle place faces only itself */
    {"ANA", 3, 3},
    {"NAN", 3, 1},
    {"nry", 3, 1},
    {"AA", 2, 2},
    {"ACGT", 1, 1},
    {"RY", 1, 1},        /* A or G, and C or T */
    {"RRY", 2, 1},
    {"ARRA", 4, 1},
    {"ATRTA", 5, 5},
    {"BAVTD", 4, 1},     /* TAAT of BAVT */
    {"gattaca", 4, 4},   /* atta */
    {"GATNACA", 4, 3},   /* ATTA of ATNA, and ACA */
    {"ACMA", 4, 1},      /* ACCA */
    {"ACNCA", 5, 5},
    {"ACNNCA", 6, 1},
    {"AANAA", 5, 5},
    {"AANAC", 4, 3},     /* AAAA of AANA, and ANA */
    {"BANAB", 5, 3},     /* ANA */
    {"TACCANG", 6, 4},   /* TACCAT of TACCAN, and ACCA */
    {"WSWSWS", 5, 1},    /* A or T, and C or G */
    {"TTTACGCA", 5, 5},  /* ACGCA */
    {"ACGCATNNN", 7, 5}, /* GCATACG of GCATNNN, and ACGCA */
    {"acgtTGCA", 8, 8},
    {"acgyTGCA", 8, 1},
    {"acgtNTGCA", 9, 9},
    {"NNNNNNNN", 8, 1},
};
const size_t uncertain_keys_count = sizeof uncertain_keys / sizeof uncertain_keys[0];

/* of the bases, of two of them, of three and of all four */
const uncertain_pair uncertain_pairs[UNCERTAIN_CODES] = {
    {'A', "CGTYKSB"}, {'C', "AGTRKWD"}, {'G', "ACTYMWH"}, {'T', "ACGRMSV"},
    {'R', "CTY"}, {'Y', "AGR"}, {'M', "GTK"}, {'K', "ACM"}, {'S', "ATW"}, {'W', "CGS"},
    {'B', "A"}, {'D', "C"}, {'H', "G"}, {'V', "T"},
    {'N', ""}};

const char *const uncertain_none[] = {
    "U", "u", "AUA", "uACGT", "ACGTu", "X", "x", "NXN", "-", "A-A", " ", " A", "A ", "A A", "A\n", "A\r\n", "A\tA", ".", "*", "?", "0", "A9",
    "E", "F", "I", "J", "L", "O", "P", "Q", "Z", "e", "f", "i", "j", "l", "o", "p", "q", "z", "@A", "[A", "`a", "{a", "\x01", "\x7f", "\xc1", "\xe1", "\xff"};
const size_t uncertain_none_count = sizeof uncertain_none / sizeof uncertain_none[0];

unsigned uncertain_pair_some(char one, char other)
{
    size_t i = 0;
    while (uncertain_pairs[i].code != one) i++;
    return strchr(uncertain_pairs[i].apart, other) ? 1 : 2;
}

unsigned uncertain_pair_every(char one, char other)
{
    return one == other && strchr("ACGT", one) ? 2 : 1;
}
