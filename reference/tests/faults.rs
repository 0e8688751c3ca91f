//! Each refusal of a file, with its place.

mod common;

use common::{file, hex, padded, text, WORKED};
use reference::file::{read_file, section_bytes, write_file};

/// Mark, version, m 2, delta 1, flat: 8 bytes.
const HEAD: &str = "4E5046 0001 02 01 46";
/// A table of one row, (1, 3) named "a": 13 bytes, so the next is at 21.
const TABLE: &str = "54 000A 00000001 00000003 01 61";

fn refused(bytes: &str, line: &str) {
    assert_eq!(text(&hex(bytes)), format!("refused {line}\n"), "{bytes}");
}

fn refused_after_head(bytes: &str, line: &str) {
    refused(&format!("{HEAD} {bytes}"), line);
}

fn refused_after_table(bytes: &str, line: &str) {
    refused(&format!("{HEAD} {TABLE} {bytes}"), line);
}

/// A table section of these rows, each of 10 bytes with a name of one byte.
fn table(rows: &[(u32, u32)]) -> Vec<u8> {
    let mut body = Vec::new();
    for (budget, period) in rows {
        body.extend(budget.to_be_bytes());
        body.extend(period.to_be_bytes());
        body.extend([1, b'a']);
    }
    body
}

fn file_with_table(body: &[u8]) -> Vec<u8> {
    let mut file = hex(HEAD);
    file.extend(section_bytes(b'T', body));
    file
}

#[test]
fn mark_and_version_are_two_fields() {
    refused("", "12 at 0");
    refused("58", "12 at 1");
    refused("58 59", "12 at 2");
    refused("58 59 5A", "10 at 0");
    refused("4E 50 47 0001", "10 at 0");
    refused("6E 50 46 0001 02 01 46", "10 at 0");
    refused("58 59 5A 0002", "10 at 0");
    refused("4E5046", "12 at 3");
    refused("4E5046 00", "12 at 4");
    refused("4E5046 02", "12 at 4");
    refused("4E5046 0002", "11 at 3");
    refused("4E5046 0000", "11 at 3");
    refused("4E5046 0100", "11 at 3");
    refused("4E5046 0101 02 01 58", "11 at 3");
}

#[test]
fn rest_of_the_head() {
    refused("4E5046 0001", "12 at 5");
    refused("4E5046 0001 02", "12 at 6");
    refused("4E5046 0001 02 01", "12 at 7");
    refused("4E5046 0001 02 01 47", "13 at 7");
    refused("4E5046 0001 02 01 66 58", "13 at 7");
    refused(HEAD, "12 at 8");
}

#[test]
fn worked_file_cut_at_every_offset() {
    let worked = hex(WORKED);
    assert_eq!(worked.len(), 49);
    for length in 0..worked.len() {
        let expected = match length {
            // The table is whole and no calls have begun.
            31 => "slot 3 bins 2\n\
                   bin 0 load 333334 reserve 2\n\
                   bin 1 load 666667 reserve 3\n\
                   end 0\n"
                .to_string(),
            _ => format!("refused 12 at {length}\n"),
        };
        assert_eq!(text(&worked[..length]), expected);
    }
}

#[test]
fn section_letter_comes_before_its_length() {
    refused_after_head("58", "13 at 8");
    refused_after_head("43", "14 at 8");
    refused_after_head("4E", "14 at 8");
    refused_after_head("54", "12 at 9");
    refused_after_head("54 00", "12 at 10");
    refused_after_table("58", "13 at 21");
    refused_after_table("54", "14 at 21");
    refused_after_table("54 00", "14 at 21");
    refused_after_table("43", "12 at 22");
    refused_after_table("4E", "12 at 22");
    refused_after_table("4E FF", "12 at 23");
    refused_after_table("43 0003 4B0001 43", "14 at 27");
    refused_after_table("43 0003 4B0001 74", "13 at 27");
}

#[test]
fn sections_out_of_order() {
    refused_after_head("43 0003 4B0001", "14 at 8");
    refused_after_head("4E 0000", "14 at 8");
    refused_after_head("58 0000", "13 at 8");
    refused_after_head("74 0000", "13 at 8");
    refused_after_table(TABLE, "14 at 21");
    refused_after_table("43 0003 4B0001 54 0000", "14 at 27");
    refused_after_table("43 0003 4B0001 43 0003 4B0001", "14 at 27");
    refused_after_table("43 0003 4B0001 43 0000", "14 at 27");
    refused_after_table("43 0003 4B0001 4E 0001 00 43 0000", "14 at 31");
    refused_after_table("4E 0002 4343 54 0000", "14 at 26");
    // An empty table counts as the one table.
    refused_after_head("54 0000 54 0000", "14 at 11");
}

#[test]
fn length_past_the_end_comes_before_the_body() {
    // The body has a budget of 0, a bad letter, anything at all.
    refused_after_head("54 000B 00000000 00000003 00 61", "12 at 21");
    refused_after_table("43 0003 5858", "12 at 26");
    refused_after_table("43 0001", "12 at 24");
    refused_after_table("4E 0001", "12 at 24");
    refused_after_table("4E FFFF 00", "12 at 25");
}

#[test]
fn name_length_is_a_field_before_the_name() {
    refused_after_head("54 0009 00000001 00000003 00", "15 at 19");
    refused_after_head("54 0009 00000001 00000003 11", "15 at 19");
    refused_after_head("54 0009 00000001 00000003 FF", "15 at 19");
    refused_after_head("54 0009 00000001 00000003 01", "16 at 20");
    refused_after_head("54 000A 00000001 00000003 02 1F", "16 at 21");
    refused_after_head("54 000B 00000001 00000003 02 1F 7F", "15 at 20");
    refused_after_head("54 000B 00000001 00000003 02 20 7F", "15 at 21");
    refused_after_head("54 000B 00000000 00000003 02 61 00", "15 at 21");
    let whole = "54 0019 00000001 00000003 10 20202020 20202020 7E7E7E7E 7E7E7E7E";
    assert!(read_file(&hex(&format!("{HEAD} {whole}"))).is_ok());
}

#[test]
fn row_cut_by_its_section() {
    refused_after_head("54 0001 00", "16 at 12");
    refused_after_head("54 0003 000000", "16 at 14");
    refused_after_head("54 0004 00000000", "16 at 15");
    refused_after_head("54 0007 00000000 FFFFFF", "16 at 18");
    refused_after_head("54 0008 00000000 FFFFFFFF", "16 at 19");
    // More of the file follows the section.
    refused_after_head("54 0008 00000001 00000003 01 61 4E 0000", "16 at 19");
    refused_after_head("54 000B 00000001 00000003 01 61 00 43 0000", "16 at 22");
}

#[test]
fn a_row_is_judged_before_the_next_is_read() {
    refused_after_head("54 000A 00000000 00000003 01 61", "1 at row 0");
    refused_after_head("54 000A 00000000 FFFFFFFF 01 61", "1 at row 0");
    refused_after_head("54 000A 00000001 000F4241 01 61", "2 at row 0");
    refused_after_head("54 000A FFFFFFFF FFFFFFFF 01 61", "2 at row 0");
    refused_after_head("54 000A 00000004 00000003 01 61", "3 at row 0");
    refused_after_head("54 000A 00000001 00000000 01 61", "3 at row 0");
    refused_after_head("54 000A 000F4241 000F4240 01 61", "3 at row 0");
    // A bad row 0 comes before a bad name, a cut or a bad number in row 1.
    let row = "00000004 00000003 01 61";
    refused_after_head(
        &format!("54 0014 {row} 00000001 00000003 01 00"),
        "3 at row 0",
    );
    refused_after_head(&format!("54 000B {row} 00"), "3 at row 0");
    refused_after_head(
        &format!("54 0014 {row} 00000000 00000003 01 61"),
        "3 at row 0",
    );
    // And before a bad section behind it.
    refused_after_head(&format!("54 000A {row} 58"), "3 at row 0");
    let rows = table(&[(1, 3), (4, 3)]);
    assert_eq!(text(&file_with_table(&rows)), "refused 3 at row 1\n");
    let rows = table(&[(1, 1), (1_000_000, 1_000_000)]);
    assert!(read_file(&file_with_table(&rows)).is_ok());
}

#[test]
fn row_sixty_five() {
    let rows = table(&[(1, 100); 64]);
    assert!(read_file(&file_with_table(&rows)).is_ok());
    let with = |last: &str| {
        let mut rows = rows.clone();
        rows.extend(hex(last));
        text(&file_with_table(&rows))
    };
    // Row 64 starts at 11 + 640 = 651.
    assert_eq!(with("00000001 00000003 01 61"), "refused 21 at row 64\n");
    assert_eq!(with("00000001 00000003 01"), "refused 16 at 660\n");
    assert_eq!(with("00"), "refused 16 at 652\n");
    assert_eq!(with("00000001 00000003 00 61"), "refused 15 at 659\n");
    assert_eq!(with("00000001 00000003 01 7F"), "refused 15 at 660\n");
    assert_eq!(with("00000000 00000003 01 61"), "refused 1 at row 64\n");
    assert_eq!(with("00000001 000F4241 01 61"), "refused 2 at row 64\n");
    assert_eq!(with("00000004 00000003 01 61"), "refused 3 at row 64\n");
    // A 66th row is not reached.
    assert_eq!(with("00000001 00000003 01 61 00"), "refused 21 at row 64\n");
}

#[test]
fn faults_of_calls() {
    refused_after_table("43 0000", "17 at 22");
    refused_after_table("43 0000 58", "17 at 22");
    refused_after_table("43 0003 4B0000", "17 at 25");
    refused_after_table("43 0005 5200 4B0000", "17 at 27");
    refused_after_table("43 0001 52", "16 at 25");
    refused_after_table("43 0001 44", "16 at 25");
    refused_after_table("43 0001 4B", "16 at 25");
    refused_after_table("43 0002 4B00", "16 at 26");
    refused_after_table("43 0002 4B00 00", "16 at 26");
    refused_after_table("43 0001 58", "13 at 24");
    refused_after_table("43 0003 520058", "13 at 26");
    refused_after_table("43 0004 4B000172", "13 at 27");
    // The first fault counts, and the calls run only if there is none.
    refused_after_table("43 0004 4B0000 58", "17 at 25");
    refused_after_table("43 0003 4B0001 58", "13 at 27");
}

#[test]
fn empty_table_and_empty_note_are_good() {
    refused_after_head("54 0000", "25");
    refused_after_head("54 0000 4E 0000 43 0003 4B0001", "25");
    let good = format!("{HEAD} {TABLE} 4E 0000 43 0003 4B0001 4E 0003 544343 4E 0000");
    assert_eq!(
        text(&hex(&good)),
        "slot 3 bins 1\nbin 0 load 333334 reserve 2\ntick 0 - -\nend 1\n"
    );
}

#[test]
fn any_task_byte_reads() {
    let good = format!("{HEAD} {TABLE} 43 0006 52FF 4401 5201");
    assert_eq!(
        text(&hex(&good)),
        "slot 3 bins 1\nbin 0 load 333334 reserve 2\n\
         request 255 refused 6\ndone 1 refused 6\nrequest 1 refused 6\nend 0\n"
    );
}

#[test]
fn program_takes_sixty_thousand_bytes() {
    let small = file(1, 1, b'F', &[(1, 1)], b"K\x00\x01");
    let lines = "slot 1 bins 1\nbin 0 load 1000000 reserve 1\ntick 0 -\nend 1\n";
    assert_eq!(text(&small), lines);
    assert_eq!(text(&padded(small.clone(), 60_000)), lines);
    let long = padded(small, 60_001);
    assert_eq!(text(&long), "refused 18\n");
    // Only the program has that limit.
    assert!(read_file(&long).is_ok());
    assert_eq!(text(&[b'X'; 60_001]), "refused 18\n");
    assert_eq!(text(&[b'X'; 60_000]), "refused 10 at 0\n");
}

#[test]
fn fault_comes_before_verdict_and_verdict_before_layout() {
    // m 0 with a fault at the file's end.
    refused(&format!("4E5046 0001 00 01 46 {TABLE} 58"), "13 at 21");
    refused(&format!("4E5046 0001 00 00 46 {TABLE}"), "4");
    refused(&format!("4E5046 0001 11 00 46 {TABLE}"), "4");
    refused(&format!("4E5046 0001 10 00 46 {TABLE}"), "5");
    refused(&format!("4E5046 0001 10 11 46 {TABLE}"), "5");
    refused("4E5046 0001 00 00 46 54 0000", "4");
    refused("4E5046 0001 01 FF 44 54 0000", "5");
    refused("4E5046 0001 01 10 44 54 0000", "25");
    refused(&format!("4E5046 0001 01 04 46 {TABLE}"), "26");
}

fn write(letter: u8, calls: &[u8], room: usize) -> Result<usize, (u8, usize)> {
    let mut area = vec![0xEE; room];
    let answer = write_file(&common::tasks(&[(1, 3)]), 1, 1, letter, calls, &mut area);
    let written = *answer.as_ref().unwrap_or(&0);
    assert!(area[written..].iter().all(|&byte| byte == 0xEE));
    answer.map_err(|fault| match fault.place {
        reference::file::Place::Byte(offset) => (fault.code, offset),
        reference::file::Place::Row(_) => panic!("the writer has no row places"),
    })
}

#[test]
fn writer_takes_two_bytes_worth_of_calls() {
    // Head 8, table 3 + 13 (the name has 4 bytes), calls 3 + their length.
    assert_eq!(write(b'F', &[], 24), Ok(24));
    assert_eq!(write(b'F', &[], 23), Err((19, 0)));
    let longest = b"K\x00\x01".repeat(21_845);
    assert_eq!(longest.len(), 65_535);
    assert_eq!(write(b'S', &longest, 70_000), Ok(24 + 3 + 65_535));
    assert_eq!(write(b'S', &longest, 65_561), Err((19, 0)));
    let mut longer = b"R\x00".repeat(32_768);
    assert_eq!(write(b'D', &longer, 70_000), Err((18, 0)));
    assert_eq!(write(b'D', &longer, 0), Err((18, 0)));
    longer.push(b'X');
    assert_eq!(write(b'D', &longer, 70_000), Err((13, 65_536)));
    assert_eq!(write(b'X', &longer, 70_000), Err((13, 0)));
    assert_eq!(write(b'F', b"R", 70_000), Err((16, 1)));
    assert_eq!(write(b'F', b"R\x00K\x00\x00", 70_000), Err((17, 3)));
}

#[test]
fn written_file_reads_back() {
    let calls = b"R\x00K\x00\x02D\x07".to_vec();
    let rows = [(1, 3), (2, 1_000_000)];
    let read = read_file(&file(200, 0, b'D', &rows, &calls)).unwrap();
    assert_eq!((read.m, read.delta), (200, 0));
    assert_eq!(read.layout.letter(), b'D');
    assert_eq!(read.tasks, common::tasks(&rows));
    assert_eq!(read.calls.len(), 3);
}
