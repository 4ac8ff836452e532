/* Writes the five words of 1,000 letters as FASTA files into a folder, for the whole programs. */
#include <stdio.h>

#include "words.h"

enum { LETTERS = 1000 };

static int write_word(const char *folder, int word)
{
    char path[4096];
    uint8_t letters[LETTERS];
    snprintf(path, sizeof path, "%s/word%d.fa", folder, word + 1);
    FILE *out = fopen(path, "w");
    if (!out)
        return 1;
    make_word(word, letters, LETTERS);
    fprintf(out, ">word_%d %s\n", word + 1, word_names[word]);
    for (int i = 0; i < LETTERS; i += FASTA_LINE)
        fprintf(out, "%.*s\n", LETTERS - i < FASTA_LINE ? LETTERS - i : FASTA_LINE, (const char *)letters + i);
    return fclose(out);
}

int main(int count, char **arguments)
{
    for (int word = 0; count == 2 && word < WORDS; word++)
        if (write_word(arguments[1], word) != 0)
            return 1;
    return count != 2;
}
