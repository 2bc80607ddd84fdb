/* mexaldor.h - read, edit and remove the Exif data of TIFF, JPEG, HEIF and WebP files. PNG and JPEG XL
 * files are read, scrubbed and searched for locations; RAF, ORF, RW2 and CR3 are only read.
 *
 * A call reads the caller's bytes and writes its result into the caller's buffer. It keeps no
 * pointer and no state, so calls may run in any number of threads, over the same bytes too if none
 * of them changes these bytes. Memory comes from malloc and is freed before the call returns. A
 * pointer may be null if its length is 0. Two buffers of one call must not overlap.
 *
 * What these calls promise is proved: see docs/PROOFS.md of the library.
 */
#ifndef MEXALDOR_H
#define MEXALDOR_H

#include <stdbool.h>
#include <stddef.h>
#include <stdint.h>

#ifdef __cplusplus
extern "C" {
#endif

/* The result of a call. mexaldor_error gives the text of a status. */
enum mexaldor_status {
    MEXALDOR_OK = 0,
    MEXALDOR_FAULTS = 1,            /* done, but faults were skipped: JSON lists them */
    MEXALDOR_INVALID_FORMAT = 2,    /* an unknown file format, or Exif data with a fault */
    MEXALDOR_NOT_FOUND = 3,         /* the file has no Exif data */
    MEXALDOR_BLANK_VALUE = 4,
    MEXALDOR_TOO_BIG = 5,           /* longer than the format allows */
    MEXALDOR_NOT_SUPPORTED = 6,
    MEXALDOR_UNEXPECTED_VALUE = 7,
    MEXALDOR_OUT_OF_MEMORY = 8,
    MEXALDOR_FIELD_NOT_FOUND = 16,  /* the file has no such field to set */
    MEXALDOR_UNKNOWN_TYPE = 17,
    MEXALDOR_VALUE_TOO_LONG = 18,   /* the new value does not fit into the space of the old one */
    MEXALDOR_NAMES_OFFSETS = 19,     /* the field holds the offset or length of other data */
    MEXALDOR_SHARED_BYTES = 20,     /* something else uses the same bytes */
    MEXALDOR_PICTURE_DATA = 22,     /* a TIFF file: the picture is stored in the same data */
    MEXALDOR_INVALID_HEADER = 23,
    MEXALDOR_NO_DIRECTORY = 24,     /* there is no directory to put the field into */
    MEXALDOR_FULL_DIRECTORY = 25,   /* the directory has no space for an entry */
    MEXALDOR_NO_ASSIGNMENT = 32,    /* not TAG=VALUE in UTF-8, or an unknown tag */
    MEXALDOR_NOT_OF_ITS_TYPE = 33,  /* the text is not a value of the type of the field */
    MEXALDOR_SECOND_EXIF = 34,      /* a second block of Exif data would be lost */
    MEXALDOR_NO_DATE = 35,          /* the file has no date to shift */
    MEXALDOR_OUT_OF_RANGE = 36,     /* the standard does not have this value for the tag */
    MEXALDOR_NO_THUMBNAIL = 38,     /* 37 is not used */
    MEXALDOR_LOCATION_FOUND = 39,   /* a part of the file holds a location */
    MEXALDOR_LOCATION_POSSIBLE = 40, /* a part of the file may hold a location */
    MEXALDOR_UNSTABLE = 41          /* a HEIF file would be read otherwise without its metadata */
};

/* The status of a call, and the length of its complete output in bytes. */
struct mexaldor_answer {
    uint32_t status;
    size_t length;
};

/* Reads the Exif data of a file of `length` bytes and makes a JSON object of them, in UTF-8,
 * without a terminating zero. Its schema is docs/exif.schema.json; its path is empty. At most
 * `room` bytes of it are written to `out`; the other bytes of `out` stay. The answer has the length
 * of the whole object: if it is greater than `room`, call again with a larger buffer. A refusal
 * also gives an object: with the reason, or, if the picture has no Exif data (MEXALDOR_NOT_FOUND),
 * with its format, an empty summary and no fields.
 *
 * lenient: skip faults in directories and values, and list them in the object.
 * limit: the most directory entries to read, for untrusted files; 0 means 1,000,000. */
struct mexaldor_answer mexaldor_read(const uint8_t *file, size_t length, bool lenient,
                                     uint64_t limit, uint8_t *out, size_t room);

/* Erases the GPS data of Exif: their bytes become zero, and no other byte changes. The file keeps
 * its length. Locations in XMP, in maker notes and in data that no directory of the file points to
 * stay. A refused file is not changed. */
uint32_t mexaldor_erase_gps(uint8_t *file, size_t length);

/* Checks what a file holds beside the picture, and makes a JSON object of it: whether the file holds
 * a location ("yes", "no" or "unknown"), and each part with its kind, offset and length; see
 * docs/check.schema.json. The status is MEXALDOR_OK if no part holds a location,
 * MEXALDOR_LOCATION_FOUND if one does, or MEXALDOR_LOCATION_POSSIBLE if one may. `out`, `room` and
 * the length are as for mexaldor_read. Any other status comes without an object. */
struct mexaldor_answer mexaldor_check(const uint8_t *file, size_t length, uint8_t *out,
                                      size_t room);

/* Erases the locations of a file in all its parts: the GPS data of Exif, and the properties and
 * datasets of XMP and IPTC that name a location. No other byte changes but the CRCs of changed PNG
 * chunks, and the file keeps its length. The status is MEXALDOR_LOCATION_POSSIBLE if a part stays that may hold a location:
 * mexaldor_check says which. After any other status but MEXALDOR_OK the file is not changed.
 *
 * force_blank: overwrite XMP packets and IPTC data that can't be read, which stay otherwise. */
uint32_t mexaldor_erase_locations(uint8_t *file, size_t length, bool force_blank);

/* Writes a copy of a file without its metadata to `out`. JPEG, WebP, PNG and JPEG XL files lose all
 * metadata; the colour profile and what decoders need stay. In HEIF and TIFF files what is not the
 * picture becomes zeros or empty data where it is; a raw file is refused, and so is a TIFF file whose
 * picture is stored in an unknown way. If parts that may hold metadata stay, the status is MEXALDOR_FAULTS, and
 * mexaldor_check lists them. The new file is not longer than the old one, except that a
 * WebP file may gain a missing pad byte: `room == length + 1` is always enough. A JPEG stream that
 * ends before its picture does is written as far as it goes, with MEXALDOR_FAULTS. After a refusal
 * `out` is not changed. */
struct mexaldor_answer mexaldor_scrub(const uint8_t *file, size_t length, uint8_t *out,
                                      size_t room);

/* Sets one field of the main image in place. The assignment is TAG=VALUE in UTF-8, for example
 * "Orientation=6" or "DateTime=2024-05-01T12:30:00". The file keeps its length, and only bytes of
 * the field change. A refused file is not changed. */
uint32_t mexaldor_set(uint8_t *file, size_t length, const char *assignment,
                      size_t assignment_length);

/* Writes the text of a status to `out`, at most `room` bytes, in ASCII, without a terminating zero.
 * Returns the length of the whole text. */
size_t mexaldor_error(uint32_t status, char *out, size_t room);

#ifdef __cplusplus
}
#endif

#endif
