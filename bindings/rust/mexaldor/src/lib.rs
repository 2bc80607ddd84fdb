//! Reads, edits and removes the Exif data of TIFF, JPEG, HEIF and WebP files.
//!
//! PNG and JPEG XL files are read, scrubbed and searched for locations; RAF, ORF, RW2 and CR3 are only read.
//!
//! ```no_run
//! # fn main() -> Result<(), Box<dyn std::error::Error>> {
//! let mut picture = std::fs::read("holiday.jpg")?;
//! println!("{}", mexaldor::read(&picture)?.json);
//! mexaldor::set(&mut picture, "Orientation=1")?;
//! mexaldor::erase_gps(&mut picture)?;
//! std::fs::write("clean.jpg", mexaldor::scrub(&picture)?)?;
//! # Ok(())
//! # }
//! ```
//!
//! What the library does is proved; this crate, which calls it, is tested.

use mexaldor_sys as sys;
use std::fmt;

/// The result of reading a file.
#[derive(Clone, Debug, PartialEq, Eq)]
pub struct Told {
    /// The JSON object of its fields; docs/exif.schema.json describes it.
    pub json: String,
    /// Whether faults were skipped. The object lists them.
    pub faults: bool,
}

/// Why a call was refused. Nothing has changed.
#[derive(Clone, Copy, Debug, PartialEq, Eq)]
pub struct Refused(u32);

impl Refused {
    /// An unknown file format, or Exif data with a fault.
    pub const INVALID_FORMAT: Refused = Refused(2);
    /// The file has no Exif data to change.
    pub const NOT_FOUND: Refused = Refused(3);
    /// Out of memory.
    pub const OUT_OF_MEMORY: Refused = Refused(8);
    /// The file has no such field to set.
    pub const FIELD_NOT_FOUND: Refused = Refused(16);
    /// The new value does not fit into the space of the old one.
    pub const VALUE_TOO_LONG: Refused = Refused(18);
    /// The field holds the offset or length of other data.
    pub const NAMES_OFFSETS: Refused = Refused(19);
    /// Something else uses the same bytes.
    pub const SHARED_BYTES: Refused = Refused(20);
    /// A TIFF file: the picture is stored in the same data.
    pub const PICTURE_DATA: Refused = Refused(22);
    /// There is no directory to put the field into.
    pub const NO_DIRECTORY: Refused = Refused(24);
    /// The directory has no space for an entry.
    pub const FULL_DIRECTORY: Refused = Refused(25);
    /// Not `TAG=VALUE`, or an unknown tag.
    pub const NO_ASSIGNMENT: Refused = Refused(32);
    /// The text is not a value of the type of the field.
    pub const NOT_OF_ITS_TYPE: Refused = Refused(33);
    /// A second block of Exif data would be lost.
    pub const SECOND_EXIF: Refused = Refused(34);
    /// The file has no date to shift.
    pub const NO_DATE: Refused = Refused(35);
    /// The standard does not have this value for the tag.
    pub const OUT_OF_RANGE: Refused = Refused(36);
    /// The file has no thumbnail.
    pub const NO_THUMBNAIL: Refused = Refused(38);
    /// A HEIF file would be read otherwise without its metadata.
    pub const UNSTABLE: Refused = Refused(41);

    /// The status number of `mexaldor.h`.
    pub fn number(self) -> u32 {
        self.0
    }
}

impl fmt::Display for Refused {
    fn fmt(&self, f: &mut fmt::Formatter<'_>) -> fmt::Result {
        let text = filled(|out, room| sys::mexaldor_answer {
            status: 0,
            // SAFETY: `out` has `room` bytes.
            length: unsafe { sys::mexaldor_error(self.0, out, room) },
        });
        f.write_str(&String::from_utf8_lossy(&text.1))
    }
}

impl std::error::Error for Refused {}

/// Whether a file holds a location.
#[derive(Clone, Copy, Debug, PartialEq, Eq)]
pub enum Location {
    /// No part was found that does.
    Absent,
    /// A part does.
    Present,
    /// A part may: it can't be read, or is not looked at.
    Unknown,
}

/// What a file holds beside the picture.
#[derive(Clone, Debug, PartialEq, Eq)]
pub struct Checked {
    /// Whether it holds a location.
    pub location: Location,
    /// The JSON object of its parts; docs/check.schema.json describes it.
    pub json: String,
}

/// How files are read.
#[derive(Clone, Copy, Debug, Default)]
pub struct Options {
    /// Whether the first fault is an error. Otherwise faults in directories and values are skipped.
    pub strict: bool,
    /// The most directory entries to read, for untrusted files; 0 means 1,000,000.
    pub limit: u64,
}

/// Reads the Exif data of a file. Faults in directories and values are skipped. A picture without
/// Exif data has an object too, with its format, an empty summary and no fields.
pub fn read(file: &[u8]) -> Result<Told, Refused> {
    read_with(file, Options::default())
}

/// Reads the Exif data of a file with these options, as [`read`] does.
pub fn read_with(file: &[u8], options: Options) -> Result<Told, Refused> {
    let Options { strict, limit } = options;
    // SAFETY: `file` has its length, and `out` has `room` bytes, which nobody else holds.
    let (status, text) = filled(|out, room| unsafe {
        sys::mexaldor_read(file.as_ptr(), file.len(), !strict, limit, out, room)
    });
    match (Refused(status), String::from_utf8(text)) {
        (Refused(0 | 1) | Refused::NOT_FOUND, Ok(json)) => Ok(Told { json, faults: status == 1 }),
        (refused, _) => Err(refused),
    }
}

/// Sets one field of the main image in place, by `TAG=VALUE`.
pub fn set(file: &mut [u8], assignment: &str) -> Result<(), Refused> {
    // SAFETY: both have their lengths, and `file` is held by nobody else.
    ended(unsafe {
        sys::mexaldor_set(file.as_mut_ptr(), file.len(), assignment.as_ptr(), assignment.len())
    })
}

/// Checks what a file holds beside the picture, and whether that holds a location.
pub fn check(file: &[u8]) -> Result<Checked, Refused> {
    // SAFETY: `file` has its length, and `out` has `room` bytes, which nobody else holds.
    let (status, text) = filled(|out, room| unsafe {
        sys::mexaldor_check(file.as_ptr(), file.len(), out, room)
    });
    let location = match status {
        0 => Location::Absent,
        39 => Location::Present,
        40 => Location::Unknown,
        status => return Err(Refused(status)),
    };
    match String::from_utf8(text) {
        Ok(json) => Ok(Checked { location, json }),
        Err(_) => Err(Refused(status)),
    }
}

/// Erases the locations of a file in place: the GPS data of Exif, and the properties and datasets of
/// XMP and IPTC that name a location. Returns whether a part stays that may hold one: [`check`] says
/// which.
pub fn erase_locations(file: &mut [u8]) -> Result<bool, Refused> {
    erase_locations_with(file, Unread::Keep)
}

/// What becomes of XMP packets and IPTC data that can't be read.
#[derive(Clone, Copy, Debug, PartialEq, Eq)]
pub enum Unread {
    /// They stay.
    Keep,
    /// They are overwritten.
    Blank,
}

/// The same, and overwrites XMP packets and IPTC data that can't be read, if `unread` says so.
pub fn erase_locations_with(file: &mut [u8], unread: Unread) -> Result<bool, Refused> {
    let force_blank = unread == Unread::Blank;
    // SAFETY: `file` has its length and is held by nobody else.
    match unsafe { sys::mexaldor_erase_locations(file.as_mut_ptr(), file.len(), force_blank) } {
        0 => Ok(false),
        40 => Ok(true),
        status => Err(Refused(status)),
    }
}

/// Erases the GPS data of Exif in place. Locations in XMP and in maker notes stay.
pub fn erase_gps(file: &mut [u8]) -> Result<(), Refused> {
    // SAFETY: `file` has its length and is held by nobody else.
    ended(unsafe { sys::mexaldor_erase_gps(file.as_mut_ptr(), file.len()) })
}

/// Returns a copy of a file without its metadata.
///
/// JPEG, WebP, PNG and JPEG XL files lose all metadata; the colour profile and what decoders need
/// stay. In HEIF and TIFF files what is not the picture becomes zeros or empty data where it is; raw
/// files are refused.
/// [`check`] lists parts that may hold metadata and stay.
pub fn scrub(file: &[u8]) -> Result<Vec<u8>, Refused> {
    // A WebP file whose last payload lacks its pad byte gets one.
    let mut new = vec![0; file.len() + 1];
    // SAFETY: both have their lengths, and `new` is held by nobody else.
    let answer =
        unsafe { sys::mexaldor_scrub(file.as_ptr(), file.len(), new.as_mut_ptr(), new.len()) };
    // 1: the stream ends before its picture does, and was copied as far as it goes.
    if answer.status != 1 {
        ended(answer.status)?;
    }
    new.truncate(answer.length);
    Ok(new)
}

fn ended(status: u32) -> Result<(), Refused> {
    match status {
        0 => Ok(()),
        status => Err(Refused(status)),
    }
}

// Calls with a buffer, and again with a larger one if it was too short.
fn filled(call: impl Fn(*mut u8, usize) -> sys::mexaldor_answer) -> (u32, Vec<u8>) {
    let mut room = vec![0; 4096];
    loop {
        let answer = call(room.as_mut_ptr(), room.len());
        if answer.length <= room.len() {
            room.truncate(answer.length);
            return (answer.status, room);
        }
        room.resize(answer.length, 0);
    }
}
