/* A typing error in one of a row's nine numbers, as a station meets it: a line of its parameter file is read, the record goes to a
 * call that takes one, and row_words.h says what is wrong. The line that is due stands here, and names the number that was mistyped.
 * A J that is mistyped and stays below 65,536 is another row that keeps all rules: no call can tell. */
#include "row_words.h"
#include <ctype.h>
#include <string.h>

/* The header's two macros read a constant too. */
typedef char constants[SPOONRIPPLE_NUMBER(2564) == SPOONRIPPLE_BAD_ROW && SPOONRIPPLE_PART(2564) == SPOONRIPPLE_PART_DERIVED ? 1 : -1];

enum { KP, J, S, H, W, L, P, B, P1, NUMBERS };
static const char *const names[NUMBERS] = {"K'", "J", "S", "H", "W", "L", "P", "B", "P1"};

/* Lines of the file: rows of Table 2, of which the check makes these records. */
enum { FIRST, MIDDLE, LAST, LINES };
static const char *const lines[LINES][NUMBERS] = {
    {"10", "254", "7", "10", "17", "27", "10", "10", "11"},
    {"114", "5", "19", "10", "127", "143", "16", "108", "17"},
    {"56403", "471", "907", "16", "56951", "57326", "375", "56044", "379"},
};

/* In a line, one number as it was typed, and what is said then. */
static const struct {
    int line, at;
    const char *typed, *due;
} errors[] = {
    {FIRST, KP, "0", "refused 4, part 2: K' is 0, and must be from 1 to 56,403"},
    {FIRST, KP, "1", "refused 4, part 7: P = K' + S + H - W is 1 + 7 + 10 - 17 = 1, and must be at least 3"},
    {FIRST, KP, "110", "refused 4, part 10: L is 27, and must be K' + S + H = 127"},
    {LAST, KP, "564403", "refused 4, part 1: K' is 564403, and must be below 65,536"},
    {LAST, KP, "56404", "refused 4, part 2: K' is 56404, and must be from 1 to 56,403"},
    {FIRST, J, "254254", "refused 4, part 1: J is 254254, and must be below 65,536"},
    {MIDDLE, J, "65536", "refused 4, part 1: J is 65536, and must be below 65,536"},
    {FIRST, S, "8", "refused 4, part 3: S is 8, and must be odd and at least 3"},
    {FIRST, S, "1", "refused 4, part 3: S is 1, and must be odd and at least 3"},
    {FIRST, S, "77", "refused 4, part 6: B = W - S is 17 - 77 = -60, and must be at least 1"},
    {FIRST, S, "3", "refused 4, part 8: ceil(B/S) = ceil((W - S)/S) is ceil((17 - 3)/3) = 5, and must be below S"},
    {MIDDLE, S, "9", "refused 4, part 8: ceil(B/S) = ceil((W - S)/S) is ceil((127 - 9)/9) = 14, and must be below S"},
    {LAST, S, "9907", "refused 4, part 9: L = K' + S + H is 56403 + 9907 + 16 = 66326, and must be at most 65,535"},
    {FIRST, S, "9", "refused 4, part 10: L is 27, and must be K' + S + H = 29"},
    {FIRST, H, "1", "refused 4, part 4: H is 1, and must be from 2 to 255"},
    {LAST, H, "1666", "refused 4, part 4: H is 1666, and must be from 2 to 255"},
    {LAST, H, "4294967295", "refused 4, part 1: H is 4294967295, and must be below 65,536"},
    {FIRST, H, "100", "refused 4, part 10: L is 27, and must be K' + S + H = 117"},
    {FIRST, W, "16", "refused 4, part 5: W is 16, and must be a prime"},
    {FIRST, W, "1", "refused 4, part 5: W is 1, and must be a prime"},
    {FIRST, W, "7", "refused 4, part 6: B = W - S is 7 - 7 = 0, and must be at least 1"},
    {FIRST, W, "71", "refused 4, part 7: P = K' + S + H - W is 10 + 7 + 10 - 71 = -44, and must be at least 3"},
    {MIDDLE, W, "1277", "refused 4, part 7: P = K' + S + H - W is 114 + 19 + 10 - 1277 = -1134, and must be at least 3"},
    {FIRST, W, "19", "refused 4, part 10: P is 10, and must be L - W = 8"},
    {FIRST, L, "28", "refused 4, part 10: L is 28, and must be K' + S + H = 27"},
    {LAST, L, "573326", "refused 4, part 10: L is 573326, and must be K' + S + H = 57326"},
    {FIRST, P, "11", "refused 4, part 10: P is 11, and must be L - W = 10"},
    {MIDDLE, P, "6", "refused 4, part 10: P is 6, and must be L - W = 16"},
    {FIRST, B, "9", "refused 4, part 10: B is 9, and must be W - S = 10"},
    {MIDDLE, B, "1108", "refused 4, part 10: B is 1108, and must be W - S = 108"},
    {FIRST, P1, "13", "refused 4, part 10: P1 is 13, and must be the smallest prime not below P, which is 11"},
    {LAST, P1, "375", "refused 4, part 10: P1 is 375, and must be the smallest prime not below P, which is 379"},
};

/* The line of a file as it stands there with one number typed so, read as a station reads it. */
static int read_line(int line, int at, const char *typed, uint64_t row[NUMBERS]) {
    char text[128] = "";
    unsigned long long n[NUMBERS];
    for (int i = 0; i < NUMBERS; i++) strcat(strcat(text, i == at ? typed : lines[line][i]), ", ");
    if (sscanf(text, "%llu, %llu, %llu, %llu, %llu, %llu, %llu, %llu, %llu", n, n + 1, n + 2, n + 3, n + 4, n + 5, n + 6, n + 7, n + 8) != NUMBERS) return 0;
    for (int i = 0; i < NUMBERS; i++) row[i] = n[i];
    return 1;
}

/* What row_words writes, without the end of the line. */
static int says(uint32_t result, const uint64_t row[NUMBERS], char *said, int room) {
    FILE *file = tmpfile();
    if (file == NULL) return 0;
    row_words(file, result, row);
    rewind(file);
    int whole = fgets(said, room, file) != NULL && said[strlen(said) - 1] == '\n' && fgetc(file) == EOF;
    fclose(file);
    said[strcspn(said, "\n")] = 0;
    return whole;
}

/* Whether a line has this name as a word: P1 is not P. */
static int has(const char *said, const char *name) {
    for (const char *at = strstr(said, name); at != NULL; at = strstr(at + 1, name)) {
        char after = at[strlen(name)];
        if (at > said && !isalnum((unsigned char)at[-1]) && !isalnum((unsigned char)after) && after != '\'') return 1;
    }
    return 0;
}

/* Whether a call with a record refuses an error with its line. Of the five alone the check says the same, and finds nothing in part 10. */
static int found(size_t i, int *part) {
    uint64_t row[NUMBERS], five[NUMBERS] = {0}, out[NUMBERS];
    char said[160], of_five[160];
    if (!read_line(errors[i].line, errors[i].at, errors[i].typed, row)) return 0;
    uint32_t result = spoonripple_isi(SPOONRIPPLE_ROW(row), 1, 0, out, 1);
    *part = (int)SPOONRIPPLE_PART(result);
    if (SPOONRIPPLE_NUMBER(result) != SPOONRIPPLE_BAD_ROW || !says(result, row, said, sizeof said)) return 0;
    if (strcmp(said, errors[i].due) != 0 || !has(said, names[errors[i].at])) return fprintf(stderr, "said: %s\n", said), 0;
    memcpy(five, row, 5 * sizeof *row);
    uint32_t checked = spoonripple_row_check((uint32_t)row[0], (uint32_t)row[1], (uint32_t)row[2], (uint32_t)row[3], (uint32_t)row[4], out, NUMBERS);
    if (*part == SPOONRIPPLE_PART_DERIVED) return checked == SPOONRIPPLE_DONE;
    return checked == result && says(checked, five, of_five, sizeof of_five) && strcmp(said, of_five) == 0;
}

int main(void) {
    unsigned faults = 0, met[SPOONRIPPLE_PART_DERIVED + 1] = {0}, mistyped[NUMBERS] = {0};
    /* Without an error each line is taken. */
    for (int line = 0; line < LINES; line++) {
        uint64_t row[NUMBERS], out[1];
        if (!read_line(line, -1, NULL, row) || spoonripple_isi(SPOONRIPPLE_ROW(row), 1, 0, out, 1) != SPOONRIPPLE_DONE)
            faults++, fprintf(stderr, "line %d is refused as it stands\n", line);
    }
    for (size_t i = 0; i < sizeof errors / sizeof *errors; i++) {
        int part = 0;
        if (!found(i, &part)) faults++, fprintf(stderr, "%s typed %s, due: %s\n", names[errors[i].at], errors[i].typed, errors[i].due);
        if (part >= 1 && part <= SPOONRIPPLE_PART_DERIVED) met[part]++;
        mistyped[errors[i].at]++;
    }
    for (int part = 1; part <= SPOONRIPPLE_PART_DERIVED; part++)
        if (met[part] == 0) faults++, fprintf(stderr, "no error has part %d\n", part);
    for (int at = 0; at < NUMBERS; at++)
        if (mistyped[at] == 0) faults++, fprintf(stderr, "no error is in %s\n", names[at]);
    printf("typing errors in a row: %u lines, %u faults\n", (unsigned)(sizeof errors / sizeof *errors), faults);
    return faults != 0;
}
