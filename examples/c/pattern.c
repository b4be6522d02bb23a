/* Builds a pattern, reads it back, prints its page, merges two others, and plays it on a simulated
 * DA7280; then sets up a custom waveform.
 *
 * C99, no heap: everything lives in arrays of known size. Whatever is not as expected is
 * told, and main then returns 1. On a unit, transfer() is your I2C driver; the rest stays. */
#include "da728x.h"

#include <stdio.h>
#include <string.h>

#define ADDRESS 0x4A

/* Registers that are looked at. */
#define CHIP_REV 0x00
#define FRQ_LRA_PER_H 0x0A
#define FRQ_LRA_PER_L 0x0B
#define ACTUATOR1 0x0C
#define ACTUATOR3 0x0E
#define CALIB_V2I_L 0x10
#define TOP_CTL1 0x22
#define SWG_C1 0x25
#define SEQ_CTL2 0x28
#define MEM_CTL2 0x2D
#define TRIM4 0x60
#define SNP_MEM_0 0x84

static int faults;

static void expect(const char *what, uint64_t got, uint64_t wanted)
{
    if (got == wanted) return;
    printf("NOT AS EXPECTED: %s is %llu, not %llu\n", what, (unsigned long long)got,
           (unsigned long long)wanted);
    faults++;
}

static void expect_bytes(const char *what, const uint8_t *got, const uint8_t *wanted, size_t len)
{
    size_t i;
    for (i = 0; i < len; i++) {
        if (got[i] == wanted[i]) continue;
        printf("NOT AS EXPECTED: byte %u of %s is %02X, not %02X\n", (unsigned)i, what, got[i],
               wanted[i]);
        faults++;
        return;
    }
}

/* ---- the simulated chip ------------------------------------------------- */

/* Codes of this bus; the driver hands them through. */
enum { BUS_DONE = 0, BUS_NO_ACKNOWLEDGE = 1, BUS_LOST = 2 };

struct chip {
    uint8_t registers[256];
    unsigned transfers; /* since fails_at was set */
    unsigned fails_at;  /* the transfer that is lost; 0 for none */
};

/* The waveform memory takes a byte only while bit 7 of MEM_CTL2 is set. */
static void store(struct chip *chip, unsigned at, uint8_t byte)
{
    if (at >= SNP_MEM_0 && at < SNP_MEM_0 + DA728X_IMAGE && chip->registers[MEM_CTL2] < 0x80) return;
    chip->registers[at % 256] = byte;
}

/* One transaction: the first byte sent is a register, the others go there and to those
 * behind it; then a byte is read if `read` is not NULL. */
static uint8_t transfer(struct chip *chip, uint8_t address, const uint8_t *bytes, size_t len,
                        uint8_t *read)
{
    size_t i;
    chip->transfers++;
    if (address != ADDRESS) return BUS_NO_ACKNOWLEDGE;
    if (chip->transfers == chip->fails_at) return BUS_LOST;
    for (i = 1; i < len; i++) store(chip, bytes[0] + (unsigned)i - 1, bytes[i]);
    if (read) *read = chip->registers[bytes[0]];
    return BUS_DONE;
}

/* ---- running a session -------------------------------------------------- */

static uint8_t session[DA728X_SESSION];

/* The record of the one chip: lent with every start and every answer. */
static uint8_t record[DA728X_RECORD];

struct end {
    uint8_t refusal; /* 0 if every exchange was made */
    uint8_t code;    /* the bus's, at refusal 17 */
    uint8_t made;    /* how many exchanges */
};

/* Runs the session that was begun to its end. The buffer is for reading memory. */
static struct end run(struct chip *chip, uint8_t *buffer, size_t buffer_len)
{
    struct end end = {0, 0, 0};
    uint8_t bytes[33];
    uint32_t next;
    while ((next = da728x_pending(session, sizeof session, bytes, sizeof bytes)) != 0) {
        uint8_t address = (uint8_t)(next >> 8 & 255), wanted = next >> 16 != 0, byte = 0;
        uint8_t code = transfer(chip, address, bytes, next & 255, wanted ? &byte : NULL);
        uint8_t kind = code ? DA728X_FAILED : wanted ? DA728X_BYTE : DA728X_DONE;
        uint32_t told = da728x_answer(record, sizeof record, session, sizeof session, kind,
                                      code ? code : byte, buffer, buffer_len);
        end.refusal = told & 255;
        end.code = (uint8_t)(told >> 8 & 255);
        end.made = (uint8_t)(told >> 16 & 255);
        if (end.refusal) return end;
    }
    expect("the session is completed", da728x_result(session, sizeof session) >> 32, 1);
    return end;
}

/* Runs a session that has to be begun and to make this many exchanges. */
static void run_whole(struct chip *chip, const char *what, uint8_t refused, unsigned exchanges)
{
    struct end end = {0, 0, 0};
    expect(what, refused, 0);
    if (!refused) end = run(chip, NULL, 0);
    expect(what, end.refusal, 0);
    expect(what, end.made, exchanges);
    expect(what, da728x_result(session, sizeof session) >> 24 & 255, exchanges);
    printf("%s: %u exchange%s\n", what, end.made, end.made == 1 ? "" : "s");
}

/* ---- the pattern -------------------------------------------------------- */

/* Two snippets; sequence 0 plays the first, sequence 1 the second and then silence. */
static const uint8_t calls[] = {
    DA728X_CALL_RAMP,         3,  10, 0, /* AA */
    DA728X_CALL_STEP,         1,  0,  0, /* 00 */
    DA728X_CALL_ADD_SNIPPET,  0,  0,  0,
    DA728X_CALL_STEP,         2,  15, 0, /* 1F */
    DA728X_CALL_RAMP,         2,  0,  0, /* 90 */
    DA728X_CALL_ADD_SNIPPET,  0,  0,  0,
    DA728X_CALL_FRAME_NEW,    1,  0,  0,
    DA728X_CALL_ADD_FRAME,    0,  0,  0, /* 01 */
    DA728X_CALL_ADD_SEQUENCE, 0,  0,  0,
    DA728X_CALL_FRAME_NEW,    2,  0,  0,
    DA728X_CALL_GAIN,         1,  0,  0,
    DA728X_CALL_TIMEBASE,     2,  0,  0,
    DA728X_CALL_LOOP_COUNT,   2,  0,  0,
    DA728X_CALL_FREQUENCY_HZ, 44, 1,  0, /* 300 Hz */
    DA728X_CALL_ADD_FRAME,    0,  0,  0, /* 32 96 2C */
    DA728X_CALL_SILENCE,      0,  0,  0,
    DA728X_CALL_ADD_FRAME,    0,  0,  0, /* 00 */
    DA728X_CALL_ADD_SEQUENCE, 0,  0,  0,
};

/* Counts, pointers to the last byte of each item, snippets, sequences; zeros follow. */
static const uint8_t wanted_image[DA728X_IMAGE] = {
    2,    2,    7,    9, 10, 14, 0xAA, 0x00, 0x1F, 0x90,
    0x01, 0x32, 0x96, 0x2C,
};

static void build(uint8_t image[DA728X_IMAGE])
{
    expect("da728x_assemble_strict",
           da728x_assemble_strict(calls, sizeof calls, image, DA728X_IMAGE), 0);
    expect_bytes("the image", image, wanted_image, DA728X_IMAGE);
    printf("built: %u calls\n", (unsigned)sizeof calls / 4);
}

/* A list with a refused call makes no image: the first one is given, and its place. */
static void refuse(void)
{
    uint8_t wrong[sizeof calls], answers[sizeof calls / 4], image[DA728X_IMAGE] = {0};
    uint8_t points[2] = {0x55, 0x55};
    const uint8_t nothing[DA728X_IMAGE] = {0};
    uint32_t refused;
    memcpy(wrong, calls, sizeof calls);
    wrong[4 * 9 + 1] = 16; /* the tenth call: FRAME_NEW of snippet 16 */
    refused = da728x_assemble_strict(wrong, sizeof wrong, image, DA728X_IMAGE);
    expect("the refused call's number", refused & 255, 3);
    expect("the refused call's place", refused >> 8, 10);
    expect_bytes("the image that was not made", image, nothing, DA728X_IMAGE);
    printf("refused: call %u with %u\n", (unsigned)(refused >> 8), (unsigned)(refused & 255));

    /* Every answer: no frame was begun, so the calls on it are refused too, up to SILENCE. */
    expect("the number of calls",
           da728x_answers(wrong, sizeof wrong, answers, sizeof answers), sizeof answers);
    expect("FRAME_NEW 16", answers[9], 3);
    expect("GAIN without a frame", answers[10], 3);
    expect("ADD_FRAME without a frame", answers[14], 3);
    expect("SILENCE", answers[15], 0);
    /* A list that is cut short: its last call is refused. */
    refused = da728x_assemble_strict(calls, sizeof calls - 1, image, DA728X_IMAGE);
    expect("a list that is cut short", refused, 14 + 256 * (sizeof calls / 4));

    /* A snippet goes into a buffer whole, or not at all: here are two points and one byte. */
    refused = da728x_snippet(calls, 2 * 4, points, 1);
    expect("a buffer that is too short", refused, 65536 * 24);
    expect("that buffer", points[0], 0x55);
    expect("one that is not", da728x_snippet(calls, 2 * 4, points, 2), 2);
    expect_bytes("the snippet", points, wanted_image + 6, 2);
}

static void read_back(const uint8_t image[DA728X_IMAGE])
{
    uint32_t counts = da728x_read_counts(image, DA728X_IMAGE);
    uint32_t point = da728x_read_point(image, DA728X_IMAGE, 1, 0);
    uint64_t frame = da728x_read_frame(image, DA728X_IMAGE, 1, 0);
    uint8_t lists[DA728X_LISTS], damaged[DA728X_IMAGE];
    unsigned i;
    expect("the counts", counts, 0x0202);
    expect("a point", point, 0x1F);
    expect("a point's length", da728x_point_timebases((uint8_t)point), 2);
    expect("a point's amplitude", da728x_point_amplitude((uint8_t)point), 15);
    expect("a third point", da728x_read_point(image, DA728X_IMAGE, 1, 2), 256);
    expect("a frame", frame, (uint64_t)300 << 32 | 0x02020102);
    expect("a frame without loop count and frequency", da728x_read_frame(image, DA728X_IMAGE, 0, 0),
           (uint64_t)0xFFFF << 32 | 0xFF000001);
    expect("a third frame", da728x_read_frame(image, DA728X_IMAGE, 1, 2), (uint64_t)1 << 48);

    /* The same in one call. */
    expect("the counts again", da728x_read_lists(image, DA728X_IMAGE, lists, sizeof lists), counts);
    expect_bytes("the points", lists, wanted_image + 6, 4);
    expect("where snippet 0 ends", lists[96], 2);
    expect("where snippet 1 ends", lists[97], 4);
    expect("where sequence 0 ends", lists[687], 1);
    expect("where sequence 1 ends", lists[688], 3);
    for (i = 0; i < 6; i++) expect("a frame's byte", lists[111 + 6 + i], frame >> 8 * i & 255);
    printf("read back: %u snippets, %u sequences; sequence 1 begins with snippet %u at %u Hz\n",
           (unsigned)counts >> 8, (unsigned)counts & 255u, (unsigned)(frame & 255),
           (unsigned)(frame >> 32));

    memcpy(damaged, image, DA728X_IMAGE);
    damaged[DA728X_IMAGE - 1] = 1;
    expect("a damaged image", da728x_read_counts(damaged, DA728X_IMAGE), 65536u * 18);
}

/* The pattern on paper: lines of 36 characters and a newline. */
static const char wanted_page[] = "S01 AA00                            \n"
                                  "S02 1F90                            \n"
                                  "F00 01 01                           \n"
                                  "F01 01 32962C                       \n"
                                  "F01 02 00                           \n";

static void print_page(const uint8_t image[DA728X_IMAGE])
{
    static uint8_t page[DA728X_PAGE], untouched[DA728X_PAGE];
    const size_t len = sizeof wanted_page - 1;
    uint32_t told;
    memset(page, 0x55, sizeof page);
    memset(untouched, 0x55, sizeof untouched);
    expect("a page with no room", da728x_page(image, DA728X_IMAGE, page, len - 1), 65536u * 24);
    expect("the page of no image", da728x_page(image, DA728X_IMAGE - 1, page, 0), 65536u * 18);
    expect_bytes("the buffer without a page", page, untouched, sizeof page);
    told = da728x_page(image, DA728X_IMAGE, page, sizeof page);
    expect("the page's length", told, len);
    expect_bytes("the page", page, (const uint8_t *)wanted_page, len);
    expect_bytes("what is behind the page", page + len, untouched, sizeof page - len);
    printf("printed, for the binder:\n");
    if (told < 65536) fwrite(page, 1, told, stdout);
}

/* ---- two patterns in one image ------------------------------------------ */

/* One snippet, and a sequence that plays it twice. */
static const uint8_t shallow_ahead[DA728X_IMAGE] = {
    1,    1,    6,    13,   0xF3, 0xF7, 0xB0,
    0x31, 0x84, 0x78, 0x18, 0x11, 0x8C, 0x78,
};

/* Two snippets, and two sequences that play both. */
static const uint8_t turn_now[DA728X_IMAGE] = {
    2,    2,    7,    9,    22,   35,   0x17, 0x10, 0x27, 0xF0,
    0x49, 0x84, 0xC8, 0x29, 0x84, 0xC8, 0x09, 0x84, 0xC8, 0x18, 0x0A, 0x96, 0x2C,
    0x0A, 0x96, 0x2C, 0x18, 0x49, 0x84, 0xC8, 0x29, 0x84, 0xC8, 0x09, 0x84, 0xC8,
};

/* The frames of turn_now name the snippets 2 and 3 here; silence, 18, stays. */
static const uint8_t wanted_both[DA728X_IMAGE] = {
    3,    3,    10,   12,   14,   21,   34,   47,
    0xF3, 0xF7, 0xB0, 0x17, 0x10, 0x27, 0xF0,
    0x31, 0x84, 0x78, 0x18, 0x11, 0x8C, 0x78,
    0x4A, 0x84, 0xC8, 0x2A, 0x84, 0xC8, 0x0A, 0x84, 0xC8, 0x18, 0x0B, 0x96, 0x2C,
    0x0B, 0x96, 0x2C, 0x18, 0x4A, 0x84, 0xC8, 0x2A, 0x84, 0xC8, 0x0A, 0x84, 0xC8,
};

static uint8_t merged(const uint8_t second[DA728X_IMAGE], uint8_t *image, size_t image_len)
{
    return da728x_merge(shallow_ahead, DA728X_IMAGE, second, DA728X_IMAGE, image, image_len);
}

static void merge(void)
{
    uint8_t both[DA728X_IMAGE], untouched[DA728X_IMAGE], lacking[DA728X_IMAGE], refused;
    uint32_t counts;
    uint64_t frame;
    memset(both, 0x55, sizeof both);
    memset(untouched, 0x55, sizeof untouched);
    /* A silence made a frame of snippet 3, which turn_now has not. */
    memcpy(lacking, turn_now, DA728X_IMAGE);
    lacking[19] = 0x1B;
    refused = merged(lacking, both, sizeof both);
    expect("a frame with an absent snippet", refused, 25);
    expect("an image with no room", merged(turn_now, both, sizeof both - 1), 24);
    expect_bytes("the buffer without an image", both, untouched, sizeof both);
    printf("not merged: a frame with an absent snippet, refused with %u\n", refused);

    expect("da728x_merge", merged(turn_now, both, sizeof both), 0);
    expect_bytes("the merged image", both, wanted_both, DA728X_IMAGE);
    counts = da728x_read_counts(both, DA728X_IMAGE);
    frame = da728x_read_frame(both, DA728X_IMAGE, 1, 0);
    expect("the counts of both", counts, 0x0303);
    expect("the first frame of turn_now", frame, (uint64_t)200 << 32 | 0x00010202);
    printf("merged: %u snippets, %u sequences; sequence 1 begins with snippet %u at %u Hz\n",
           (unsigned)counts >> 8, (unsigned)counts & 255u, (unsigned)(frame & 255),
           (unsigned)(frame >> 32));
}

/* ---- the chip ----------------------------------------------------------- */

static void put16(uint8_t *at, unsigned value)
{
    at[0] = (uint8_t)(value & 255);
    at[1] = (uint8_t)(value >> 8 & 255);
}

static void find(struct chip *chip)
{
    const uint8_t none[DA728X_RECORD] = {0}, found[DA728X_RECORD] = {ADDRESS, 0, 1};
    struct end end;
    expect("starting new", da728x_new(ADDRESS, 1, session, sizeof session), 0);
    expect("done, where a byte is wanted",
           da728x_answer(record, sizeof record, session, sizeof session, DA728X_DONE, 0, NULL, 0),
           19);
    end = run(chip, NULL, 0); /* the exchange is still pending */
    expect("a DA7281", end.refusal, 16);
    expect("one exchange, not completed", da728x_result(session, sizeof session), 1u << 24);
    expect_bytes("the record that was not made", record, none, sizeof record);
    printf("new: no DA7281, refused with %u\n", end.refusal);

    run_whole(chip, "new", da728x_new(ADDRESS, 0, session, sizeof session), 1);
    expect_bytes("the record of new", record, found, sizeof record);
    expect("enable without settings",
           da728x_enable(record, sizeof record, session, sizeof session), 15);
}

static void configure(struct chip *chip)
{
    uint8_t settings[DA728X_SETTINGS] = {0}; /* an LRA, tracking, no PID words, no triggers */
    put16(settings + 1, 2500);               /* mV, nominal */
    put16(settings + 3, 3500);               /* mV, absolute */
    put16(settings + 5, 253);                /* mA: refused, at most 252 */
    put16(settings + 7, 8000);               /* mOhm */
    put16(settings + 9, 50);                 /* uH */
    put16(settings + 11, 170);               /* Hz */
    settings[18] = 3;                        /* RTWM: sequences are started over the bus */
    settings[32] = 1;                        /* acceleration */
    expect("253 mA", da728x_configure(record, sizeof record, settings, sizeof settings, session,
                                      sizeof session), 22);

    put16(settings + 5, 165);
    run_whole(chip, "configure", da728x_configure(record, sizeof record, settings, sizeof settings,
                                                  session, sizeof session), 14);
    expect("settings are stored", record[2], 2);
    expect_bytes("the stored settings", record + 3, settings, sizeof settings);
    expect("ACTUATOR1", chip->registers[ACTUATOR1], 106);
    expect("ACTUATOR3", chip->registers[ACTUATOR3], 18);
    expect("CALIB_V2I_L", chip->registers[CALIB_V2I_L], 109);
    expect("FRQ_LRA_PER_H", chip->registers[FRQ_LRA_PER_H], 34);
    expect("FRQ_LRA_PER_L", chip->registers[FRQ_LRA_PER_L], 59);
    expect("TRIM4", chip->registers[TRIM4], 2);

    /* A refused start whose number nobody looks at: no answer is taken, the record stays. */
    settings[5] = 253;
    expect("253 mA again", da728x_configure(record, sizeof record, settings, sizeof settings,
                                            session, sizeof session), 22);
    expect("an answer to an ended session",
           da728x_answer(record, sizeof record, session, sizeof session, DA728X_DONE, 0, NULL, 0)
               & 255, 19);
    expect("the stored current", record[3 + 5], 165);
}

static uint8_t begin_upload(const uint8_t image[DA728X_IMAGE])
{
    return da728x_upload_waveform_memory(record, sizeof record, image, DA728X_IMAGE, 1, session,
                                         sizeof session);
}

static uint8_t begin_play(uint8_t sequence_id, uint8_t loops)
{
    return da728x_play_sequence(record, sizeof record, sequence_id, loops, session, sizeof session);
}

/* The bus loses the third exchange: the chip then has 32 bytes of the image and is unlocked. The
 * count of sequences in the record is 0 until an upload is completed. */
static void upload(struct chip *chip, const uint8_t image[DA728X_IMAGE])
{
    struct end end;
    chip->transfers = 0;
    chip->fails_at = 3;
    expect("starting an upload", begin_upload(image), 0);
    end = run(chip, NULL, 0);
    expect("an exchange lost", end.refusal, 17);
    expect("the bus's code", end.code, BUS_LOST);
    expect("exchanges until then", end.made, 3);
    expect_bytes("the memory's front", chip->registers + SNP_MEM_0, image, 32);
    expect("the memory behind", chip->registers[SNP_MEM_0 + 32], 0xFF);
    expect("unlocked", chip->registers[MEM_CTL2], 0x80);
    expect("sequences after a failure", record[DA728X_SEQUENCES], 0);
    expect("playing after a failure", begin_play(0, 0), 28);
    printf("upload: the bus failed with code %u at exchange %u; begun anew\n", end.code, end.made);

    chip->fails_at = 0;
    run_whole(chip, "upload", begin_upload(image), 6);
    expect_bytes("the chip's memory", chip->registers + SNP_MEM_0, image, DA728X_IMAGE);
    expect("locked", chip->registers[MEM_CTL2], 0);
    expect("sequences loaded", record[DA728X_SEQUENCES], 2);
}

/* What the chip itself says that its memory holds. */
static void verify(struct chip *chip, const uint8_t image[DA728X_IMAGE])
{
    uint8_t memory[DA728X_IMAGE] = {0};
    struct end end;
    expect("starting to read", da728x_read_waveform_memory(record, sizeof record, DA728X_IMAGE,
                                                           sizeof memory, session,
                                                           sizeof session), 0);
    end = run(chip, memory, sizeof memory);
    expect("reading memory", end.refusal, 0);
    expect("bytes read", da728x_result(session, sizeof session) & 255, DA728X_IMAGE);
    expect_bytes("the memory read", memory, image, DA728X_IMAGE);
    printf("read memory: %u exchanges, the image\n", end.made);
}

static void play(struct chip *chip)
{
    uint8_t refused;
    run_whole(chip, "enable", da728x_enable(record, sizeof record, session, sizeof session), 1);
    expect("sequence 16", begin_play(16, 0), 11);
    refused = begin_play(2, 2);
    expect("sequence 2, which the image has not", refused, 28);
    printf("play: no sequence 2, refused with %u\n", refused);
    run_whole(chip, "play", begin_play(1, 2), 3);
    expect("sequence 1, two loops", chip->registers[SEQ_CTL2], 0x21);
    expect("RTWM, started", chip->registers[TOP_CTL1], 0x13);
}

/* A custom waveform: settings for it, then its three drive points. */
static void wave(struct chip *chip)
{
    static const uint8_t points[3] = {0x28, 0x5F, 0x80}; /* made up */
    uint8_t settings[DA728X_SETTINGS];
    struct end end;
    expect("points while tracking",
           da728x_set_custom_drive_waveform(record, sizeof record, points[0], points[1], points[2],
                                            session, sizeof session), 12);
    run_whole(chip, "disable", da728x_disable(record, sizeof record, session, sizeof session), 2);
    memcpy(settings, record + 3, sizeof settings);
    settings[19] = 2; /* custom waveform, without acceleration */
    settings[32] = 0;
    run_whole(chip, "configure for a wave", da728x_configure(record, sizeof record, settings,
                                                             sizeof settings, session,
                                                             sizeof session), 18);
    expect("sequences after configure", record[DA728X_SEQUENCES], 2);

    /* A write is lost: the chip has the first new point alone, so all three are set again. */
    chip->transfers = 0;
    chip->fails_at = 2;
    expect("starting the points",
           da728x_set_custom_drive_waveform(record, sizeof record, points[0], points[1], points[2],
                                            session, sizeof session), 0);
    end = run(chip, NULL, 0);
    expect("a write lost", end.refusal, 17);
    expect("writes until then", end.made, 2);
    expect("SWG_C1", chip->registers[SWG_C1], points[0]);
    expect("SWG_C2", chip->registers[SWG_C1 + 1], 0);
    chip->fails_at = 0;
    run_whole(chip, "points", da728x_set_custom_drive_waveform(record, sizeof record, points[0],
                                                               points[1], points[2], session,
                                                               sizeof session), 3);
    expect_bytes("SWG_C1 to SWG_C3", chip->registers + SWG_C1, points, sizeof points);
    run_whole(chip, "enable", da728x_enable(record, sizeof record, session, sizeof session), 1);
}

int main(void)
{
    static uint8_t image[DA728X_IMAGE];
    static struct chip chip;
    memset(chip.registers + SNP_MEM_0, 0xFF, DA728X_IMAGE);
    chip.registers[CHIP_REV] = 0xBA;

    build(image);
    refuse();
    read_back(image);
    print_page(image);
    merge();
    find(&chip);
    configure(&chip);
    upload(&chip, image);
    verify(&chip, image);
    play(&chip);
    wave(&chip);
    if (faults == 0) printf("all as expected\n");
    return faults != 0;
}
