//! The calls on the pictures of tests/make_files.py, whose folder MEXALDOR_PICTURES names.

use mexaldor::{
    check, erase_gps, erase_locations, erase_locations_with, read, read_with, scrub, set, Location,
    Options, Refused, Unread,
};
use std::path::PathBuf;

const CONTAINERS: [&str; 4] = ["whole.jpg", "whole.webp", "whole.heic", "whole.tif"];

fn picture(name: &str) -> Vec<u8> {
    let folder = std::env::var_os("MEXALDOR_PICTURES").expect("MEXALDOR_PICTURES names a folder");
    std::fs::read(PathBuf::from(folder).join(name)).expect("the picture is there")
}

#[test]
fn each_container_is_read() {
    for name in CONTAINERS {
        let told = read(&picture(name)).expect(name);
        assert!(told.json.contains("\"orientation\":6"), "{name}: {}", told.json);
        assert!(!told.faults);
    }
}

#[test]
fn faults_are_passed_over_or_refused() {
    let faulty = picture("faulty.jpg");
    assert!(read(&faulty).unwrap().faults);
    let strict = Options { strict: true, limit: 0 };
    assert_eq!(read_with(&faulty, strict), Err(Refused::INVALID_FORMAT));
    let few = Options { strict: false, limit: 3 };
    assert!(read_with(&picture("whole.jpg"), few).unwrap().faults);
}

#[test]
fn what_is_no_picture_is_refused() {
    assert_eq!(read(b""), Err(Refused::INVALID_FORMAT));
    assert_eq!(scrub(b""), Err(Refused::INVALID_FORMAT));
    assert_eq!(Refused::OUT_OF_MEMORY.to_string(), "Out of memory");
}

#[test]
fn a_picture_without_exif_data_has_no_fields() {
    let mut plain = picture("plain.jpg");
    let told = read(&plain).unwrap();
    assert!(!told.faults);
    assert_eq!(
        told.json,
        r#"{"path":"","format":"JPEG","summary":{},"fields":[],"faults":[]}"#
    );
    assert_eq!(set(&mut plain, "Orientation=1"), Err(Refused::NOT_FOUND));
}

#[test]
fn gps_data_are_erased() {
    for name in CONTAINERS {
        let mut file = picture(name);
        assert!(read(&file).unwrap().json.contains("\"latitude\":"));
        erase_gps(&mut file).expect(name);
        assert!(!read(&file).unwrap().json.contains("\"latitude\":"));
        assert_eq!(file.len(), picture(name).len());
    }
}

#[test]
fn locations_are_found_and_erased() {
    for name in ["whole.jpg", "whole.webp"] {
        let mut file = picture(name);
        assert_eq!(check(&file).expect(name).location, Location::Present);
        let stays = erase_locations(&mut file).expect(name);
        assert!(!read(&file).unwrap().json.contains("\"latitude\":"));
        let wanted = if stays { Location::Unknown } else { Location::Absent };
        assert_eq!(check(&file).expect(name).location, wanted);
        assert_eq!(file.len(), picture(name).len());
    }
    assert_eq!(check(b"no picture"), Err(Refused::INVALID_FORMAT));
    assert_eq!(erase_locations(&mut []), Err(Refused::INVALID_FORMAT));
    let plain = picture("plain.jpg");
    let unread = b"\xff\xe1\0\x24http://ns.adobe.com/xap/1.0/\0<City";
    let mut file = [&plain[..2], &unread[..], &plain[2..]].concat();
    let old = file.clone();
    assert_eq!(erase_locations(&mut file), Ok(true));
    assert_eq!(file, old);
    assert_eq!(erase_locations_with(&mut file, Unread::Blank), Ok(false));
    assert_eq!(check(&file).expect("plain.jpg").location, Location::Absent);
}

#[test]
fn a_field_is_set_where_it_stands_and_set_back() {
    for name in CONTAINERS {
        let old = picture(name);
        let mut file = old.clone();
        set(&mut file, "Orientation=1").expect(name);
        assert_eq!(file.iter().zip(&old).filter(|(a, b)| a != b).count(), 1);
        set(&mut file, "Orientation=6").expect(name);
        assert_eq!(file, old);
    }
}

#[test]
fn a_refusal_changes_nothing() {
    let old = picture("whole.jpg");
    for (assignment, refused) in [
        ("Orientation", Refused::NO_ASSIGNMENT),
        ("Orientation=up", Refused::NOT_OF_ITS_TYPE),
        ("Artist=me", Refused::FIELD_NOT_FOUND),
        ("Make=a much longer maker", Refused::VALUE_TOO_LONG),
    ] {
        let mut file = old.clone();
        assert_eq!(set(&mut file, assignment), Err(refused));
        assert_eq!(file, old);
    }
}

#[test]
fn metadata_are_taken_out() {
    for name in CONTAINERS {
        let old = picture(name);
        let new = scrub(&old).expect(name);
        assert!(new.len() <= old.len());
        assert_eq!(scrub(&new).expect(name), new);
    }
}

#[test]
fn a_webp_file_without_its_last_pad_byte_gets_it() {
    let old = b"RIFF\x11\0\0\0WEBPVP8L\x05\0\0\0/\x01\x80\0\x10";
    let padded = b"RIFF\x12\0\0\0WEBPVP8L\x05\0\0\0/\x01\x80\0\x10\0";
    assert_eq!(scrub(old).as_deref(), Ok(&padded[..]));
}

#[test]
fn eight_threads_answer_the_same() {
    let file = picture("whole.heic");
    let wanted = read(&file).unwrap();
    std::thread::scope(|scope| {
        for _ in 0..8 {
            scope.spawn(|| {
                for _ in 0..100 {
                    assert_eq!(read(&file).unwrap(), wanted);
                }
            });
        }
    });
}
