//! The listings of the corpus and of the samples, and stored layouts in the one way, byte for byte.

use std::env;
use std::ffi::OsString;
use std::fs;
use std::path::PathBuf;

use crate::calls;
use crate::listing;
use crate::store::EMPTY;

const DEFAULT: &str = concat!(env!("CARGO_MANIFEST_DIR"), "/../crates/trials/data/A9.bin");
const LAYOUTS: &str = concat!(
    env!("CARGO_MANIFEST_DIR"),
    "/../crates/trials/data/layouts.bin"
);
const SAMPLES: &str = concat!(env!("CARGO_MANIFEST_DIR"), "/../samples");
/// Records of the corpus, and those of stored layouts.
const RECORDS: usize = 341;
const LAYOUT_RECORDS: usize = 700;

/// A sheet and the listing that it has to give.
struct Record<'a> {
    sheet: &'a [u8],
    text: &'a [u8],
}

/// Two lengths of 32 bits, then the sheet, then the text.
fn records(mut bytes: &[u8]) -> Vec<Record<'_>> {
    let mut found = Vec::new();
    while !bytes.is_empty() {
        let (lengths, rest) = bytes.split_at(8);
        let sheet_length = u32::from_le_bytes(lengths[..4].try_into().unwrap());
        let text_length = u32::from_le_bytes(lengths[4..].try_into().unwrap());
        let (sheet, rest) = rest.split_at(sheet_length as usize);
        let (text, rest) = rest.split_at(text_length as usize);
        found.push(Record { sheet, text });
        bytes = rest;
    }
    found
}

/// Another file than the usual one.
fn named() -> Option<OsString> {
    env::var_os("CORPUS")
}

fn corpus() -> Vec<u8> {
    let path = named().map_or_else(|| PathBuf::from(DEFAULT), PathBuf::from);
    fs::read(&path).unwrap_or_else(|fault| panic!("{}: {fault}", path.display()))
}

#[test]
fn every_listing_agrees() {
    let bytes = corpus();
    let records = records(&bytes);
    assert!(named().is_some() || records.len() == RECORDS);
    for (place, record) in records.iter().enumerate() {
        agrees(&format!("record {place}"), record);
    }
}

#[test]
fn every_sample_agrees() {
    let paths = fs::read_dir(SAMPLES)
        .unwrap()
        .map(|entry| entry.unwrap().path());
    let is_sheet = |path: &PathBuf| path.extension().is_some_and(|kind| kind == "sheet");
    for path in paths.filter(is_sheet) {
        let [sheet, text] = ["sheet", "txt"].map(|kind| fs::read(path.with_extension(kind)));
        let (sheet, text) = (&sheet.unwrap(), &text.unwrap());
        agrees(&path.display().to_string(), &Record { sheet, text });
    }
}

fn agrees(name: &str, record: &Record) {
    let mut text = Vec::new();
    listing::list(&EMPTY, record.sheet, &mut text);
    assert!(
        text == record.text,
        "{name}: expected\n{}got\n{}",
        String::from_utf8_lossy(record.text),
        String::from_utf8_lossy(&text)
    );
}

#[test]
fn the_call_writes_at_the_front_alone() {
    let bytes = corpus();
    for record in records(&bytes) {
        let mut out = vec![0xA5; calls::LIST_ROOM];
        assert_eq!(
            calls::list(&EMPTY, record.sheet, &mut out),
            record.text.len()
        );
        assert_eq!(&out[..record.text.len()], record.text);
        assert!(out[record.text.len()..].iter().all(|&byte| byte == 0xA5));
        assert_eq!(calls::list(&EMPTY, record.sheet, &mut out[1..]), 0);
    }
}

/// The text of a stored layout is the sheet in the one way, or the line of a refused sheet.
#[test]
fn every_layout_agrees() {
    let bytes = fs::read(LAYOUTS).unwrap();
    let records = records(&bytes);
    assert_eq!(records.len(), LAYOUT_RECORDS);
    for (place, record) in records.iter().enumerate() {
        let mut out = vec![0xA5; record.text.len()];
        let length = calls::canonical(&EMPTY, record.sheet, &mut out);
        if length < calls::REFUSED {
            assert_eq!(length as usize, record.text.len(), "layout {place}");
            assert!(out == record.text, "layout {place}");
        } else {
            agrees(&format!("layout {place}"), record);
        }
    }
}
