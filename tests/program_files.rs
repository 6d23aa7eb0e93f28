//! Tests of the crate `program_files`, over a file system that consists of a few names.

use crate::captures::FaultyReader;
use crate::expect::{expect_at, expect_equal, expect_ok, expect_some};
use program_files::{
    FileFacts, FileId, FileSystem, Flushes, Input, NewFile, is_named, is_shown, len_of,
    missing_file, open_input,
};
use std::alloc::Global;
use std::io;
use std::io::{BufWriter, ErrorKind, Read, Write};
use std::process::Abort;

/// The bytes of the file `capture.pcap`.
const BYTES: &[u8] = b"abc";

/// The names of files with their facts. `linked.pcap` and standard input are the file `capture.pcap`. Two files have the same number on
/// different devices.
#[rattlefmt::skip]
static FACTS: [(&str, FileFacts); 5] = [
    ("capture.pcap", FileFacts { id: FileId { device: 1, number: 7 }, len: 3 }),
    ("linked.pcap", FileFacts { id: FileId { device: 1, number: 7 }, len: 3 }),
    ("/dev/stdin", FileFacts { id: FileId { device: 1, number: 7 }, len: 3 }),
    ("other.pcap", FileFacts { id: FileId { device: 1, number: 8 }, len: 0 }),
    ("elsewhere.pcap", FileFacts { id: FileId { device: 2, number: 7 }, len: 0 }),
];

/// A file system of these names. Every name except `refused.pcap` can be created.
#[derive(Drop)]
struct Names {
    alloc: Global,
}

impl FileSystem for Names {
    type Standard = &'static [u8];

    type File = &'static [u8];

    type Created = Vec<u8>;

    ghost is_standard = { λ names stdin. Unit {0} };

    ghost opens = { λ names name file. Unit {0} };

    ghost creates = { λ names name file. Unit {0} };

    ghost describes = { λ names name told. Unit {0} };

    ghost describes_open = { λ names file told. Unit {0} };

    fn stdin(&self) -> &'static [u8] {
        BYTES
    }

    fn open_file(&self, name: &str) -> io::Result<&'static [u8]> {
        if name == "capture.pcap" {
            return Ok(BYTES);
        }
        Err(io::Error::from(ErrorKind::NotFound))
    }

    fn create_file(&self, name: &str) -> io::Result<Vec<u8>> {
        if name == "refused.pcap" {
            return Err(io::Error::from(ErrorKind::PermissionDenied));
        }
        Ok(Vec::new(self.alloc))
    }

    fn facts(&self, name: &str) -> io::Result<FileFacts> {
        for (given, facts) in &FACTS {
            if *given == name {
                return Ok(*facts);
            }
        }
        Err(io::Error::from(ErrorKind::NotFound))
    }

    fn facts_of_open(&self, _file: &&'static [u8]) -> io::Result<FileFacts> {
        self.facts("capture.pcap")
    }
}

/// The kind of the error of a result.
fn kind_of<T: Drop>(outcome: io::Result<T>) -> Option<ErrorKind> {
    match outcome {
        Ok(_) => None,
        Err(error) => Some(error.kind()),
    }
}

#[test]
fn inputs_are_opened_by_their_names(rt: HostRuntime) {
    let system = Names { alloc: rt.alloc() };
    let opened = expect_ok(&rt, open_input(&system, "-"));
    expect_equal(&rt, &matches!(opened, Input::Standard(_)), &true);
    let opened = expect_ok(&rt, open_input(&system, "capture.pcap"));
    expect_equal(&rt, &matches!(opened, Input::File(_)), &true);
    for (name, kind) in [
        ("none.pcap", ErrorKind::NotFound),
        ("\0capture.pcap", ErrorKind::InvalidFilename),
    ] {
        expect_at(&rt, &name, &kind_of(open_input(&system, name)), &Some(kind));
    }
}

#[test]
fn an_input_is_the_file_with_its_numbers(rt: HostRuntime) {
    let system = Names { alloc: rt.alloc() };
    for (name, is_same) in [
        ("capture.pcap", true),
        ("linked.pcap", true),
        ("other.pcap", false),
        ("elsewhere.pcap", false),
        ("none.pcap", false),
    ] {
        for input in [Input::File(BYTES), Input::Standard(BYTES)] {
            expect_at(&rt, &name, &is_named(&system, &input, name), &is_same);
            let new = NewFile::unless_input(&system, &input, name);
            expect_at(&rt, &name, &new.is_none(), &is_same);
        }
    }
}

#[test]
fn a_new_file_is_created_by_its_first_byte(rt: HostRuntime) {
    let system = Names { alloc: rt.alloc() };
    let input = Input::File(BYTES);
    for (name, refusal) in [
        ("new.pcap", None),
        ("refused.pcap", Some(ErrorKind::PermissionDenied)),
    ] {
        let mut new = expect_some(&rt, NewFile::unless_input(&system, &input, name));
        expect_at(&rt, &name, &new.is_refused(), &false);
        expect_at(&rt, &name, &kind_of(new.write(b"ab")), &refusal);
        expect_at(&rt, &name, &new.is_refused(), &refusal.is_some());
    }
}

#[test]
fn files_have_lengths_and_can_be_missing(rt: HostRuntime) {
    let system = Names { alloc: rt.alloc() };
    expect_equal(&rt, &len_of(&system, &Input::File(BYTES)), &3);
    expect_equal(&rt, &len_of(&system, &Input::Standard(BYTES)), &0);
    expect_equal(&rt, &missing_file(&system, "capture.pcap").is_none(), &true);
    expect_equal(&rt, &missing_file(&system, "none.pcap").is_some(), &true);
}

#[test]
fn a_failed_read_is_an_error(rt: HostRuntime) {
    let mut input: Input<&[u8], FaultyReader<'_>> = Input::File(FaultyReader {
        rest: BYTES,
        reads: 1,
    });
    let mut buffer = [0; 4];
    expect_equal(&rt, &kind_of(input.read(&mut buffer)), &None);
    let failed = kind_of(input.read(&mut buffer));
    expect_equal(&rt, &failed, &Some(ErrorKind::ConnectionReset));
}

#[test]
fn a_flush_empties_the_buffer(rt: HostRuntime) {
    let output: Vec<u8> = Vec::new(rt.alloc());
    let mut output = expect_ok(&rt, BufWriter::with_capacity(rt.alloc(), 8, output));
    expect_equal(&rt, &kind_of(output.write_all(b"ab")), &None);
    expect_equal(&rt, &output.get_ref().len(), &0);
    expect_equal(&rt, &kind_of(output.flush_all()), &None);
    expect_equal(&rt, &output.get_ref().len(), &2);
}

#[test]
fn only_long_files_have_a_progress_line(rt: HostRuntime) {
    for (len, is_terminal, lines_on_terminal, is_long) in [
        (100_000_001, true, false, true),
        (100_000_000, true, false, false),
        (100_000_001, false, false, false),
        (100_000_001, true, true, false),
    ] {
        let shown = is_shown(len, is_terminal, lines_on_terminal);
        expect_at(
            &rt,
            &(len, is_terminal, lines_on_terminal),
            &shown,
            &is_long,
        );
    }
}
