/* Tests the library from C: test FOLDER, where FOLDER has the files of tests/make_files.py. */
#define _POSIX_C_SOURCE 200809L
#include "mexaldor.h"

#include <pthread.h>
#include <stdio.h>
#include <stdlib.h>
#include <string.h>

static int passed, failed;

static void check(const char *name, bool holds)
{
    if (holds) {
        passed++;
    } else {
        failed++;
        printf("FAILED: %s\n", name);
    }
}

struct bytes {
    uint8_t *at;
    size_t length;
};

static struct bytes copy(struct bytes from)
{
    struct bytes to = {malloc(from.length + 1), from.length};
    memcpy(to.at, from.at, from.length);
    return to;
}

static bool equal(struct bytes a, struct bytes b)
{
    return a.length == b.length && memcmp(a.at, b.at, a.length) == 0;
}

static struct bytes file(const char *folder, const char *name)
{
    char path[4096];
    snprintf(path, sizeof path, "%s/%s", folder, name);
    FILE *in = fopen(path, "rb");
    if (in == NULL) {
        perror(path);
        exit(1);
    }
    struct bytes to = {malloc(1 << 20), 0};
    to.length = fread(to.at, 1, 1 << 20, in);
    fclose(in);
    return to;
}

/* The object of a file, with an ending zero. */
static char *object(struct bytes of, bool lenient, struct mexaldor_answer *answer)
{
    *answer = mexaldor_read(of.at, of.length, lenient, 0, NULL, 0);
    char *text = malloc(answer->length + 1);
    *answer = mexaldor_read(of.at, of.length, lenient, 0, (uint8_t *)text, answer->length);
    text[answer->length] = 0;
    return text;
}

static bool tells(struct bytes of, const char *part)
{
    struct mexaldor_answer answer;
    char *text = object(of, true, &answer);
    bool found = strstr(text, part) != NULL;
    free(text);
    return found;
}

static void reads(const char *folder)
{
    struct bytes whole = file(folder, "whole.jpg");
    struct mexaldor_answer answer;
    char *text = object(whole, false, &answer);
    check("a file is read", answer.status == MEXALDOR_OK);
    check("its format is told", strstr(text, "\"format\":\"JPEG\"") != NULL);
    check("its orientation is told", strstr(text, "\"orientation\":6") != NULL);
    char front[16];
    memset(front, '#', sizeof front);
    struct mexaldor_answer again =
        mexaldor_read(whole.at, whole.length, false, 0, (uint8_t *)front, 8);
    check("a short buffer gets the front", memcmp(front, text, 8) == 0);
    check("and no more", memcmp(front + 8, "########", 8) == 0);
    check("the whole length is answered", again.length == answer.length);
    free(text);

    struct bytes faulty = file(folder, "faulty.jpg");
    text = object(faulty, false, &answer);
    check("a fault is refused strictly", answer.status == MEXALDOR_INVALID_FORMAT);
    check("and told", strstr(text, "\"error\":") != NULL);
    free(text);
    text = object(faulty, true, &answer);
    check("a fault is passed over leniently", answer.status == MEXALDOR_FAULTS);
    free(text);
    text = object(whole, true, &answer);
    struct mexaldor_answer few = mexaldor_read(whole.at, whole.length, true, 3, NULL, 0);
    check("a limit is a fault", few.status == MEXALDOR_FAULTS && few.length < answer.length);
    free(text);

    struct mexaldor_answer none = mexaldor_read(NULL, 0, true, 0, NULL, 0);
    check("null with 0 is no file", none.status == MEXALDOR_INVALID_FORMAT && none.length > 0);
    struct bytes plain = file(folder, "plain.jpg");
    text = object(plain, true, &none);
    check("a file without Exif data", none.status == MEXALDOR_NOT_FOUND);
    check("it has a format and no fields",
          strcmp(text, "{\"path\":\"\",\"format\":\"JPEG\",\"summary\":{},"
                       "\"fields\":[],\"faults\":[]}") == 0);
    free(text);
    free(plain.at);
    free(faulty.at);
    free(whole.at);
}

static void edits(const char *folder, const char *name)
{
    struct bytes old = file(folder, name);
    struct bytes new = copy(old);
    check(name, tells(old, "\"latitude\":"));
    check("GPS data are erased", mexaldor_erase_gps(new.at, new.length) == MEXALDOR_OK);
    check("no place is left", !tells(new, "\"latitude\":"));
    check("the orientation is left", tells(new, "\"orientation\":6"));
    const char *turned = "Orientation=1";
    check("a field is set", mexaldor_set(new.at, new.length, turned, strlen(turned)) == MEXALDOR_OK);
    check("it has its value", tells(new, "\"orientation\":1"));
    const char *back = "Orientation=6";
    check("it is set back", mexaldor_set(new.at, new.length, back, strlen(back)) == MEXALDOR_OK);
    struct bytes erased = copy(old);
    mexaldor_erase_gps(erased.at, erased.length);
    check("nothing else has changed", equal(new, erased));

    struct {
        const char *assignment;
        uint32_t status;
    } refused[] = {
        {"Orientation", MEXALDOR_NO_ASSIGNMENT},     {"NoSuchTag=1", MEXALDOR_NO_ASSIGNMENT},
        {"Orientation=up", MEXALDOR_NOT_OF_ITS_TYPE}, {"Artist=me", MEXALDOR_FIELD_NOT_FOUND},
        {"Make=a much longer maker", MEXALDOR_VALUE_TOO_LONG},
    };
    for (size_t i = 0; i < sizeof refused / sizeof *refused; i++) {
        const char *it = refused[i].assignment;
        check(it, mexaldor_set(new.at, new.length, it, strlen(it)) == refused[i].status);
    }
    check("\\xff is no UTF-8", mexaldor_set(new.at, new.length, "\xff=1", 3) == MEXALDOR_NO_ASSIGNMENT);
    check("a refusal changes nothing", equal(new, erased));
    free(erased.at);
    free(new.at);
    free(old.at);
}

static void locations(const char *folder, const char *name)
{
    struct bytes old = file(folder, name);
    struct bytes new = copy(old);
    uint8_t room[4096];
    struct mexaldor_answer answer = mexaldor_check(old.at, old.length, room, sizeof room - 1);
    check(name, answer.status == MEXALDOR_LOCATION_FOUND);
    room[answer.length < sizeof room ? answer.length : 0] = 0;
    check("a location is found", strstr((char *)room, "\"location\":\"yes\"") != NULL);
    uint32_t status = mexaldor_erase_locations(new.at, new.length, false);
    check("locations are erased", status == MEXALDOR_OK || status == MEXALDOR_LOCATION_POSSIBLE);
    check("the status is that of what is left",
          mexaldor_check(new.at, new.length, NULL, 0).status == status);
    check("no latitude is left", !tells(new, "\"latitude\":"));
    check("other fields are left", tells(new, "\"orientation\":6"));
    check("no picture is refused", mexaldor_check(NULL, 0, NULL, 0).status == MEXALDOR_INVALID_FORMAT);
    check("and not changed", mexaldor_erase_locations(NULL, 0, false) == MEXALDOR_INVALID_FORMAT);
    free(new.at);
    free(old.at);
}

static void scrubs(const char *folder, const char *name)
{
    struct bytes old = file(folder, name);
    struct bytes new = {malloc(old.length), 0};
    struct mexaldor_answer answer = mexaldor_scrub(old.at, old.length, new.at, old.length);
    new.length = answer.length;
    check(name, answer.status == MEXALDOR_OK);
    check("it is never longer", answer.length <= old.length);
    check("no field is left", !tells(new, "\"orientation\":"));
    struct mexaldor_answer length = mexaldor_scrub(old.at, old.length, NULL, 0);
    check("the length can be asked for", length.length == answer.length);
    free(new.at);
    free(old.at);
}

static void pads(void)
{
    const uint8_t old[] = "RIFF\x11\0\0\0WEBPVP8L\5\0\0\0/\1\x80\0\x10";
    const uint8_t padded[] = "RIFF\x12\0\0\0WEBPVP8L\5\0\0\0/\1\x80\0\x10\0";
    uint8_t room[sizeof old];
    struct mexaldor_answer answer = mexaldor_scrub(old, sizeof old - 1, room, sizeof room);
    check("a WebP file gets its last pad byte", answer.length == sizeof padded - 1);
    check("there is room for it", memcmp(room, padded, sizeof room) == 0);
}

static void refusals(const char *folder)
{
    struct bytes tiff = file(folder, "whole.tif");
    uint8_t room[4] = {1, 2, 3, 4};
    struct mexaldor_answer answer = mexaldor_scrub(tiff.at, 12, room, sizeof room);
    check("a TIFF file that is cut off is refused", answer.status == MEXALDOR_INVALID_FORMAT);
    check("and the buffer", answer.length == 0 && memcmp(room, "\1\2\3\4", 4) == 0);
    check("nothing is no file", mexaldor_scrub(NULL, 0, NULL, 0).status == MEXALDOR_INVALID_FORMAT);
    check("nothing has no GPS data", mexaldor_erase_gps(NULL, 0) != MEXALDOR_OK);
    check("nothing has no field", mexaldor_set(NULL, 0, NULL, 0) != MEXALDOR_OK);
    free(tiff.at);

    char text[64] = {0};
    size_t length = mexaldor_error(MEXALDOR_OUT_OF_MEMORY, text, sizeof text);
    check("a status has a text", length == 13 && strcmp(text, "Out of memory") == 0);
    check("any number has one", mexaldor_error(12345, NULL, 0) > 0);
}

struct work {
    struct bytes of;
    const char *wanted;
    bool well;
};

static void *repeat(void *given)
{
    struct work *work = given;
    work->well = true;
    for (int i = 0; i < 200; i++) {
        struct mexaldor_answer answer;
        char *text = object(work->of, true, &answer);
        work->well = work->well && strcmp(text, work->wanted) == 0;
        free(text);
    }
    return NULL;
}

static void threads(const char *folder)
{
    struct bytes whole = file(folder, "whole.heic");
    struct mexaldor_answer answer;
    char *wanted = object(whole, true, &answer);
    pthread_t thread[8];
    struct work work[8];
    for (int i = 0; i < 8; i++) {
        work[i] = (struct work){whole, wanted, false};
        pthread_create(&thread[i], NULL, repeat, &work[i]);
    }
    bool well = true;
    for (int i = 0; i < 8; i++) {
        pthread_join(thread[i], NULL);
        well = well && work[i].well;
    }
    check("eight threads over the same bytes answer the same", well);
    free(wanted);
    free(whole.at);
}

int main(int count, char **words)
{
    if (count != 2) {
        fprintf(stderr, "usage: test FOLDER\n");
        return 2;
    }
    const char *containers[] = {"whole.jpg", "whole.webp", "whole.heic", "whole.tif", "big.tif"};
    reads(words[1]);
    for (int i = 0; i < 5; i++) {
        edits(words[1], containers[i]);
    }
    for (int i = 0; i < 2; i++) {
        locations(words[1], containers[i]);
    }
    for (int i = 0; i < 4; i++) {
        scrubs(words[1], containers[i]);
    }
    pads();
    refusals(words[1]);
    threads(words[1]);
    printf("%d passed, %d failed\n", passed, failed);
    return failed != 0;
}
