/*
 * The exported functions, called from C: each answer, each lent byte and the modules are held to docs/SPECIFICATION.md,
 * and one whole label to the modules that qrcodegen 1.8.0 draws. Prints what differs; the exit status is 0 where nothing does.
 */
#include <stdio.h>
#include <string.h>

#include "gatemurmur.h"

enum { SPARE = 64, UNTOUCHED = 0xA5, LOW = 0, MEDIUM = 1, QUARTILE = 2, NUMERIC = 0, ALPHANUMERIC = 1, BYTE = 2, ECI = 3 };

static uint8_t grid[GATEMURMUR_GRID + SPARE];
static uint8_t scratch[GATEMURMUR_SCRATCH + SPARE];
static uint8_t text[GATEMURMUR_TEXT + SPARE];
static gatemurmur_record records[GATEMURMUR_RECORDS + 1];
static uint8_t input[8192];
static gatemurmur_record list[GATEMURMUR_RECORDS + 1];
static unsigned passed, failed;

/* Counts a check, and says which one did not hold. */
static bool expect(const char *what, const char *part, bool holds)
{
    if (holds) {
        passed++;
    } else {
        failed++;
        printf("differs: %s: %s\n", what, part);
    }
    return holds;
}

static bool all_are(const uint8_t *bytes, size_t from, size_t to, uint8_t value)
{
    for (size_t i = from; i < to; i++)
        if (bytes[i] != value)
            return false;
    return true;
}

static bool are_modules(size_t n)
{
    for (size_t i = 0; i < n; i++)
        if (grid[i] > 1)
            return false;
    return true;
}

/* The first 40,000 bytes of scratch are zero where a call zeroes them; every other byte stays. */
static void scratch_after(const char *what, bool zeroed)
{
    if (zeroed)
        expect(what, "scratch that is zero", all_are(scratch, 0, GATEMURMUR_SCRATCH, 0));
    expect(what, "scratch that stays", all_are(scratch, zeroed ? GATEMURMUR_SCRATCH : 0, sizeof scratch, UNTOUCHED));
}

/* ---- encoding ---- */

static gatemurmur_answer label(uint8_t version, uint8_t level, uint8_t mask)
{
    gatemurmur_answer a = {0, version, level, mask, 0, 0};
    return a;
}

static gatemurmur_answer refusal(uint32_t number, uint64_t first, uint64_t second)
{
    gatemurmur_answer a = {number, 0, 0, 0, first, second};
    return a;
}

static void lend(void)
{
    memset(grid, UNTOUCHED, sizeof grid);
    memset(scratch, UNTOUCHED, sizeof scratch);
}

/* The answer is the one wanted, and lent memory is as section 5 of the specification says after such an answer. */
static void answers(const char *what, gatemurmur_answer got, gatemurmur_answer wanted)
{
    bool same = got.number == wanted.number && got.version == wanted.version && got.level == wanted.level
        && got.mask == wanted.mask && got.first == wanted.first && got.second == wanted.second;
    if (!expect(what, "answer", same))
        printf("  got %u: %u %u %u, %llu %llu; wanted %u: %u %u %u, %llu %llu\n",
            (unsigned)got.number, got.version, got.level, got.mask,
            (unsigned long long)got.first, (unsigned long long)got.second,
            (unsigned)wanted.number, wanted.version, wanted.level, wanted.mask,
            (unsigned long long)wanted.first, (unsigned long long)wanted.second);
    size_t side = wanted.number == 0 ? 4 * (size_t)wanted.version + 17 : 0;
    expect(what, "grid bytes that stay", all_are(grid, side * side, sizeof grid, UNTOUCHED));
    if (wanted.number == 0)
        expect(what, "modules are 0 or 1", are_modules(side * side));
    scratch_after(what, wanted.number == 0);
}

static gatemurmur_answer of_text(const char *s, uint8_t level, uint8_t first, uint8_t last, uint8_t mask, bool boost)
{
    lend();
    return gatemurmur_encode_text((const uint8_t *)s, strlen(s), level, first, last, mask, boost,
        grid, GATEMURMUR_GRID, scratch, GATEMURMUR_SCRATCH);
}

/* n times one digit. */
static gatemurmur_answer of_digits(size_t n, uint8_t level, uint8_t first, uint8_t last)
{
    memset(input, '7', n);
    lend();
    return gatemurmur_encode_text(input, n, level, first, last, 0, false, grid, GATEMURMUR_GRID, scratch, GATEMURMUR_SCRATCH);
}

/* n times one byte. */
static gatemurmur_answer of_bytes(size_t n, uint8_t level, uint8_t first, uint8_t last)
{
    memset(input, 0xE9, n);
    lend();
    return gatemurmur_encode_binary(input, n, level, first, last, 0, false, grid, GATEMURMUR_GRID, scratch, GATEMURMUR_SCRATCH);
}

static void set_record(size_t i, uint64_t kind, uint64_t start, uint64_t length, uint64_t assign)
{
    gatemurmur_record r = {kind, start, length, assign};
    list[i] = r;
}

/* The first n records of the list over a text. */
static gatemurmur_answer of_list(const char *s, size_t n, uint8_t level, uint8_t first, uint8_t last)
{
    lend();
    return gatemurmur_encode_segments((const uint8_t *)s, strlen(s), list, n, level, first, last, 3, false,
        grid, GATEMURMUR_GRID, scratch, GATEMURMUR_SCRATCH);
}

static gatemurmur_answer of_codewords(uint8_t version, uint8_t level, size_t n, uint8_t mask)
{
    lend();
    return gatemurmur_encode_codewords(version, level, input, n, mask, grid, GATEMURMUR_GRID, scratch, GATEMURMUR_SCRATCH);
}

/* ---- reading ---- */

static gatemurmur_reading read_grid(size_t grid_length, size_t size, size_t text_length, size_t records_length, size_t scratch_length)
{
    memset(scratch, UNTOUCHED, sizeof scratch);
    memset(text, UNTOUCHED, sizeof text);
    memset(records, UNTOUCHED, sizeof records);
    return gatemurmur_read(grid, grid_length, size, text, text_length, records, records_length, scratch, scratch_length);
}

static void reads(const char *what, gatemurmur_reading got, gatemurmur_reading wanted)
{
    bool same = got.number == wanted.number && got.version == wanted.version && got.level == wanted.level
        && got.mask == wanted.mask && got.records == wanted.records && got.text == wanted.text
        && got.first == wanted.first && got.second == wanted.second;
    if (!expect(what, "answer", same))
        printf("  got %u: %u %u %u %llu %llu, %llu %llu\n", (unsigned)got.number, got.version, got.level, got.mask,
            (unsigned long long)got.records, (unsigned long long)got.text,
            (unsigned long long)got.first, (unsigned long long)got.second);
    scratch_after(what, wanted.number == 0 || wanted.number >= 14);
    expect(what, "text that stays", all_are(text, (size_t)wanted.text, sizeof text, UNTOUCHED));
    expect(what, "records that stay",
        all_are((const uint8_t *)records, sizeof *records * (size_t)wanted.records, sizeof records, UNTOUCHED));
}

/* The grid shows this label: these characters, and the first n records of the list. */
static void reads_back(const char *what, uint8_t version, uint8_t level, uint8_t mask, const void *chars, size_t length, size_t n)
{
    size_t side = 4 * (size_t)version + 17;
    gatemurmur_reading wanted = {0, version, level, mask, n, length, 0, 0};
    reads(what, read_grid(side * side, side, GATEMURMUR_TEXT, GATEMURMUR_RECORDS, GATEMURMUR_SCRATCH), wanted);
    expect(what, "characters", memcmp(text, chars, length) == 0);
    expect(what, "records", memcmp(records, list, sizeof *records * n) == 0);
}

static void reads_refused(const char *what, gatemurmur_reading got, uint32_t number, uint64_t first)
{
    gatemurmur_reading wanted = {number, 0, 0, 0, 0, 0, first, 0};
    reads(what, got, wanted);
}

/* ---- what modules say ---- */

static unsigned module_at(size_t side, int x, int y)
{
    return gatemurmur_get_module(grid, GATEMURMUR_GRID, side, x, y) ? 1u : 0u;
}

/* The copies of the format word, as the original places them. */
static unsigned format_first(size_t side)
{
    unsigned word = 0;
    for (int i = 0; i < 15; i++) {
        int x = i < 8 ? 8 : i == 8 ? 7 : 14 - i;
        int y = i < 6 ? i : i < 8 ? i + 1 : 8;
        word |= module_at(side, x, y) << i;
    }
    return word;
}

static unsigned format_second(size_t side)
{
    unsigned word = 0;
    for (int i = 0; i < 15; i++)
        word |= (i < 8 ? module_at(side, (int)side - 1 - i, 8) : module_at(side, 8, (int)side - 15 + i)) << i;
    return word;
}

static void has_format(const char *what, size_t side, unsigned word)
{
    expect(what, "first format copy", format_first(side) == word);
    expect(what, "second format copy", format_second(side) == word);
    expect(what, "dark module", module_at(side, 8, (int)side - 8) == 1);
}

/* ---- the cases ---- */

/* "CLICK 12 DB", Medium, version 1, automatic mask, no boost: mask 1, and the modules of qrcodegen 1.8.0. */
static void whole_label(void)
{
    static const char *const rows[21] = {
        "#######.#..##.#######",
        "#.....#..##...#.....#",
        "#.###.#.#..##.#.###.#",
        "#.###.#..####.#.###.#",
        "#.###.#..#..#.#.###.#",
        "#.....#.#.#...#.....#",
        "#######.#.#.#.#######",
        ".........###.........",
        "#.#...##.#.##..#..#.#",
        ".####...##...##.##.#.",
        "....#.###.#..#####.##",
        "#.#..#..#.#.#..#.#.##",
        "#..#.####....#####.##",
        "........#.##.##.###.#",
        "#######.######..####.",
        "#.....#..###.##.####.",
        "#.###.#..#.####..#..#",
        "#.###.#..#.....##.#..",
        "#.###.#.#.....#.##.##",
        "#.....#...#.#..#....#",
        "#######.#.....#######",
    };
    answers("a whole label", of_text("CLICK 12 DB", MEDIUM, 1, 1, GATEMURMUR_MASK_AUTO, false), label(1, MEDIUM, 1));
    for (int y = 0; y < 21; y++) {
        bool row = true;
        for (int x = 0; x < 21; x++)
            row = row && module_at(21, x, y) == (rows[y][x] == '#');
        expect("a whole label", rows[y], row);
    }
    set_record(0, ALPHANUMERIC, 0, 11, 0);
    reads_back("a whole label", 1, MEDIUM, 1, "CLICK 12 DB", 11, 1);
}

/* "01234567", Medium, version 1: its data codewords draw the same grid. */
static void published_example(void)
{
    static const uint8_t words[16] = {
        0x10, 0x20, 0x0C, 0x56, 0x61, 0x80, 0xEC, 0x11, 0xEC, 0x11, 0xEC, 0x11, 0xEC, 0x11, 0xEC, 0x11,
    };
    static uint8_t drawn[441];
    answers("01234567", of_text("01234567", MEDIUM, 1, 1, 0, false), label(1, MEDIUM, 0));
    has_format("Medium, mask 0", 21, 0x5412);
    memcpy(drawn, grid, sizeof drawn);
    memcpy(input, words, sizeof words);
    answers("01234567 as codewords", of_codewords(1, MEDIUM, 16, 0), label(1, MEDIUM, 0));
    expect("01234567 as codewords", "same grid", memcmp(grid, drawn, sizeof drawn) == 0);
    set_record(0, NUMERIC, 0, 8, 0);
    reads_back("01234567", 1, MEDIUM, 0, "01234567", 8, 1);
    answers("Low, mask 0", of_text("AC-42", LOW, 1, 1, 0, false), label(1, LOW, 0));
    has_format("Low, mask 0", 21, 0x77C4);
    set_record(0, ALPHANUMERIC, 0, 5, 0);
    reads_back("AC-42", 1, LOW, 0, "AC-42", 5, 1);
}

/* The version word of version 7, its two copies, and the centres of its alignment patterns. */
static void version_seven(void)
{
    unsigned lower = 0, upper = 0;
    answers("version 7", of_bytes(10, LOW, 7, 7), label(7, LOW, 0));
    for (int i = 0; i < 18; i++) {
        lower |= module_at(45, i / 3, 34 + i % 3) << i;
        upper |= module_at(45, 34 + i % 3, i / 3) << i;
    }
    expect("version 7", "lower left version word", lower == 0x07C94);
    expect("version 7", "upper right version word", upper == 0x07C94);
    for (int i = 0; i < 9; i++) {
        int x = 6 + 16 * (i % 3), y = 6 + 16 * (i / 3);
        if ((x == 6 || y == 6) && x != 22 && y != 22)
            continue; /* on a finder */
        expect("version 7", "alignment pattern", module_at(45, x, y) == 1 && module_at(45, x + 1, y + 1) == 0
            && module_at(45, x - 1, y) == 0 && module_at(45, x + 2, y) == 1 && module_at(45, x - 2, y - 2) == 1);
    }
}

static void sizes(void)
{
    answers("41 digits at 1-L", of_digits(41, LOW, 1, 1), label(1, LOW, 0));
    answers("42 digits at 1-L", of_digits(42, LOW, 1, 1), refusal(7, 154, 152));
    answers("17 bytes at 1-L", of_bytes(17, LOW, 1, 1), label(1, LOW, 0));
    answers("18 bytes at 1-L", of_bytes(18, LOW, 1, 1), refusal(7, 156, 152));
    answers("255 bytes, 1..9", of_bytes(255, LOW, 1, 9), refusal(7, 2052, 1856));
    answers("256 bytes, 1..9", of_bytes(256, LOW, 1, 9), refusal(6, 0, 0));
    answers("256 bytes, 1..40", of_bytes(256, LOW, 1, 40), label(10, LOW, 0));
    answers("2,953 bytes", of_bytes(2953, LOW, 1, 40), label(40, LOW, 0));
    set_record(0, BYTE, 0, 2953, 0);
    reads_back("2,953 bytes", 40, LOW, 0, input, 2953, 1);
    answers("2,954 bytes", of_bytes(2954, LOW, 1, 40), refusal(7, 23652, 23648));
    answers("7,089 digits", of_digits(7089, LOW, 1, 40), label(40, LOW, 0));
    set_record(0, NUMERIC, 0, 7089, 0);
    reads_back("7,089 digits", 40, LOW, 0, input, 7089, 1);
}

/* 15 alphanumerics are 96 bits. At version 1 Quartile holds 104 bits and High 72. */
static void boost(void)
{
    answers("no boost", of_text("ABCDEFGHIJKLMNO", LOW, 1, 40, 0, false), label(1, LOW, 0));
    answers("boost", of_text("ABCDEFGHIJKLMNO", LOW, 1, 40, 0, true), label(1, QUARTILE, 0));
}

/* An ECI record takes 12, 20 or 28 bits by its number, and 1-L holds 152. */
static void eci_sizes(void)
{
    static const struct { uint64_t assign, bits; } cases[6] = {
        {0, 12}, {127, 12}, {128, 20}, {16383, 20}, {16384, 28}, {999999, 28},
    };
    for (int i = 0; i < 6; i++) {
        size_t n = 152 / cases[i].bits;
        for (size_t k = 0; k <= n; k++)
            set_record(k, ECI, 0, 0, cases[i].assign);
        answers("ECI records that fill 1-L", of_list("", n, LOW, 1, 1), label(1, LOW, 3));
        reads_back("ECI records that fill 1-L", 1, LOW, 3, "", 0, n);
        answers("one ECI record more", of_list("", n + 1, LOW, 1, 1), refusal(7, (n + 1) * cases[i].bits, 152));
    }
}

static void lists(void)
{
    set_record(0, ECI, 0, 0, 26);
    set_record(1, ALPHANUMERIC, 0, 3, 0);
    set_record(2, NUMERIC, 3, 3, 0);
    set_record(3, BYTE, 6, 3, 0);
    answers("a mixed list", of_list("DB:120xyz", 4, QUARTILE, 3, 3), label(3, QUARTILE, 3));
    reads_back("a mixed list", 3, QUARTILE, 3, "DB:120xyz", 9, 4);
    set_record(0, ALPHANUMERIC, 1, 3, 0);
    set_record(1, ALPHANUMERIC, 0, 2, 0);
    answers("shared text", of_list("ABCD", 2, LOW, 1, 1), label(1, LOW, 3));
    set_record(0, ALPHANUMERIC, 0, 3, 0);
    set_record(1, ALPHANUMERIC, 3, 2, 0);
    reads_back("shared text", 1, LOW, 3, "BCDAB", 5, 2);
    answers("no record", of_list("ABCD", 0, LOW, 1, 1), label(1, LOW, 3));
    reads_back("no record", 1, LOW, 3, "", 0, 0);
    answers("empty text", of_text("", LOW, 1, 1, 0, false), label(1, LOW, 0));
    reads_back("empty text", 1, LOW, 0, "", 0, 0);
    set_record(0, BYTE, 0, 0, 0);
    answers("empty bytes", of_bytes(0, LOW, 1, 1), label(1, LOW, 0));
    reads_back("empty bytes", 1, LOW, 0, "", 0, 1);
    for (size_t i = 0; i < 154; i++)
        set_record(i, BYTE, 0, 0, 0);
    answers("154 empty Byte segments", of_list("", 154, LOW, 1, 40), label(9, LOW, 3));
    reads_back("154 empty Byte segments", 9, LOW, 3, "", 0, 154);
    answers("154 empty Byte segments, 10..10", of_list("", 154, LOW, 10, 10), refusal(7, 3080, 2192));
}

static void refused_numbers(void)
{
    answers("level 4", of_text("A", 4, 1, 40, 8, true), refusal(1, 4, 0));
    answers("level 4 before the rest", of_text("A", 4, 0, 41, 9, true), refusal(1, 4, 0));
    answers("version 0", of_text("A", LOW, 0, 40, 8, true), refusal(2, 0, 40));
    answers("version 41", of_text("A", LOW, 1, 41, 8, true), refusal(2, 1, 41));
    answers("first above last", of_text("A", LOW, 5, 4, 9, true), refusal(2, 5, 4));
    answers("mask 9", of_text("A", LOW, 1, 40, 9, true), refusal(3, 9, 0));
    answers("codewords, level 4", of_codewords(0, 4, 19, 9), refusal(1, 4, 0));
    answers("codewords, version 41", of_codewords(41, LOW, 19, 9), refusal(2, 41, 41));
    answers("codewords, mask 9", of_codewords(1, LOW, 18, 9), refusal(3, 9, 0));
    answers("61 codewords at 5-Q", of_codewords(5, QUARTILE, 61, 0), refusal(10, 62, 0));
    answers("62 codewords at 5-Q", of_codewords(5, QUARTILE, 62, 0), label(5, QUARTILE, 0));
}

/* One bad record after a good one. */
static void bad_record(const char *what, uint64_t kind, uint64_t start, uint64_t length, uint64_t assign)
{
    set_record(0, BYTE, 0, 4, 0);
    set_record(1, kind, start, length, assign);
    answers(what, of_list("A1b2", 2, LOW, 1, 40), refusal(5, 1, 0));
}

static void refused_records(void)
{
    bad_record("kind 4", 4, 0, 0, 0);
    bad_record("assign in a Byte record", BYTE, 0, 1, 1);
    bad_record("part outside the text", BYTE, 2, 3, 0);
    bad_record("start + length above every number", BYTE, UINT64_MAX, 2, 0);
    bad_record("a letter as Numeric", NUMERIC, 0, 2, 0);
    bad_record("a small letter as Alphanumeric", ALPHANUMERIC, 1, 2, 0);
    bad_record("ECI with a length", ECI, 0, 1, 26);
    bad_record("ECI with a start", ECI, 1, 0, 26);
    bad_record("ECI 1,000,000", ECI, 0, 0, 1000000);
    for (size_t i = 0; i < GATEMURMUR_RECORDS + 1; i++)
        set_record(i, BYTE, 0, 0, 0);
    answers("2,049 records", of_list("", GATEMURMUR_RECORDS + 1, LOW, 1, 40), refusal(4, 2049, 0));
    /* at version 40 an empty Byte record takes 20 bits */
    answers("2,048 records", of_list("", GATEMURMUR_RECORDS, LOW, 1, 40), refusal(7, 40960, 23648));
}

static void refused_buffers(void)
{
    const uint8_t *one = (const uint8_t *)"A";
    lend();
    answers("grid one short", gatemurmur_encode_text(one, 1, LOW, 2, 2, 0, false, grid, 624, scratch, 0), refusal(8, 625, 0));
    lend();
    answers("scratch one short", gatemurmur_encode_text(one, 1, LOW, 2, 2, 0, false, grid, 625, scratch, 39999),
        refusal(9, 40000, 0));
    lend();
    answers("buffers just long enough", gatemurmur_encode_text(one, 1, LOW, 2, 2, 0, false, grid, 625, scratch, 40000),
        label(2, LOW, 0));
    lend();
    answers("codewords, grid one short", gatemurmur_encode_codewords(1, LOW, input, 19, 0, grid, 440, scratch, 0),
        refusal(8, 441, 0));
    lend();
    answers("codewords, scratch one short", gatemurmur_encode_codewords(1, LOW, input, 19, 0, grid, 441, scratch, 39999),
        refusal(9, 40000, 0));
}

static void refused_readings(void)
{
    set_record(0, ALPHANUMERIC, 0, 2, 0);
    set_record(1, BYTE, 2, 3, 0);
    answers("a label to read", of_list("ABxyz", 2, MEDIUM, 1, 1), label(1, MEDIUM, 3));
    reads_refused("size 22", read_grid(441, 22, 5, 2, 0), 11, 22);
    reads_refused("size 17", read_grid(441, 17, 5, 2, 0), 11, 17);
    reads_refused("size 181", read_grid(441, 181, 5, 2, 0), 11, 181);
    reads_refused("size above every grid", read_grid(441, SIZE_MAX, 5, 2, 0), 11, SIZE_MAX);
    reads_refused("grid one short", read_grid(440, 21, 5, 2, 0), 12, 441);
    reads_refused("grid one long", read_grid(442, 21, 5, 2, 0), 12, 441);
    reads_refused("reading, scratch one short", read_grid(441, 21, 5, 2, 39999), 9, 40000);
    reads_refused("text one short", read_grid(441, 21, 4, 1, 40000), 15, 5);
    reads_refused("records one short", read_grid(441, 21, 5, 1, 40000), 16, 2);
    gatemurmur_reading wanted = {0, 1, MEDIUM, 3, 2, 5, 0, 0};
    reads("reading, buffers just long enough", read_grid(441, 21, 5, 2, 40000), wanted);
    grid[200] ^= 1;
    reads_refused("one module flipped", read_grid(441, 21, 0, 0, 40000), 14, 0);
    grid[300] = 2;
    grid[301] = 255;
    reads_refused("a byte above 1", read_grid(441, 21, 5, 8, 0), 13, 300);
}

/* A finder, its separator, and everything outside. */
static void module_question(void)
{
    answers("get_module", of_text("A", LOW, 1, 1, 0, false), label(1, LOW, 0));
    expect("get_module", "(0, 0) is dark", gatemurmur_get_module(grid, 441, 21, 0, 0));
    expect("get_module", "(1, 1) is light", !gatemurmur_get_module(grid, 441, 21, 1, 1));
    expect("get_module", "(7, 7) is light", !gatemurmur_get_module(grid, 441, 21, 7, 7));
    expect("get_module", "(20, 0) is dark", gatemurmur_get_module(grid, 441, 21, 20, 0));
    expect("get_module", "(20, 20) is not outside", gatemurmur_get_module(grid, 441, 21, 20, 20) == (grid[440] == 1));
    expect("get_module", "(-1, 0) is light", !gatemurmur_get_module(grid, 441, 21, -1, 0));
    expect("get_module", "(0, -1) is light", !gatemurmur_get_module(grid, 441, 21, 0, -1));
    expect("get_module", "(21, 0) is light", !gatemurmur_get_module(grid, 441, 21, 21, 0));
    expect("get_module", "(0, 21) is light", !gatemurmur_get_module(grid, 441, 21, 0, 21));
    expect("get_module", "least numbers", !gatemurmur_get_module(grid, 441, 21, INT32_MIN, INT32_MIN));
    expect("get_module", "greatest numbers", !gatemurmur_get_module(grid, 441, 21, INT32_MAX, INT32_MAX));
    expect("get_module", "a short grid is light", !gatemurmur_get_module(grid, 440, 21, 0, 0));
    expect("get_module", "size 22 is light", !gatemurmur_get_module(grid, 484, 22, 0, 0));
    grid[0] = 2;
    expect("get_module", "a byte that is not 1 is light", !gatemurmur_get_module(grid, 441, 21, 0, 0));
}

int main(void)
{
    whole_label();
    published_example();
    version_seven();
    sizes();
    boost();
    eci_sizes();
    lists();
    refused_numbers();
    refused_records();
    refused_buffers();
    refused_readings();
    module_question();
    printf("%u passed, %u failed\n", passed, failed);
    return failed == 0 && passed > 0 ? 0 : 1;
}
