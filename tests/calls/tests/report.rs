//! Calls of the report, on files of either width: output slices of every length.

use calls::width::Width;
use model::Written;

/// What is written into a slice of a length, over bytes that are 0x55.
fn into(length: usize, write: &dyn Fn(&mut [u8]) -> Written) -> (Written, Vec<u8>) {
    let mut out = vec![0x55; length];
    (write(&mut out), out)
}

/// A text is handed over whole, and the rest of the slice kept; or the slice is
/// too short, is refused with 3 at 0, and keeps all.
fn handed(text: &[u8], write: &dyn Fn(&mut [u8]) -> Written) {
    let length = text.len();
    for more in [0, 1, 300] {
        let (written, out) = into(length + more, write);
        assert_eq!(
            written,
            Written {
                number: 0,
                place: 0,
                length
            }
        );
        assert!(out[..length] == *text && out[length..].iter().all(|&byte| byte == 0x55));
    }
    for short in [0, length / 2, length - 1] {
        let (written, out) = into(short, write);
        assert_eq!(
            written,
            Written {
                number: 3,
                place: 0,
                length: 0
            }
        );
        assert!(out.iter().all(|&byte| byte == 0x55));
    }
}

fn reports<W: Width>() {
    for index in 0..3_000 {
        let file = W::file(13, index);
        let mut text = Vec::new();
        model::report(&file, &mut text);
        handed(&text, &|out| calls::report(&file, out));
    }
}

/// A text as long as any, but for the number of lost swaps: every cell has a
/// room of five digits with the longest total, the operations insert the first
/// 64 of them with such a total, which are present, and the rest of the schedule
/// is idle.
fn a_text_of_all_cells_and_operations<W: Width>() {
    let mut rooms = vec![0; 4_096];
    for key in 10_000..=65_534 {
        rooms[model::home(key, 4_096) as usize] = key as u16;
    }
    let total = W::bytes(W::pinned(W::CEILING));
    let mut file = [W::MARK.as_slice(), &[12]].concat();
    for (cell, room) in (0_u16..).zip(&rooms) {
        let (cell, room) = (cell.to_be_bytes(), room.to_be_bytes());
        file.extend([b"CL".as_slice(), &cell, &room, &total].concat());
    }
    for room in &rooms[..64] {
        file.extend([b"OP\x02".as_slice(), &room.to_be_bytes(), &total].concat());
    }
    let schedule: Vec<u8> = (0..16_384_u16).map(|entry| entry as u8 % 64).collect();
    for entries in schedule.chunks(255) {
        file.extend([b"SC".as_slice(), &[entries.len() as u8], entries].concat());
    }
    let mut text = "rows 64 done 64 lost 0 idle 16320\n".to_string();
    let longest = W::LONGEST;
    for (row, room) in rooms[..64].iter().enumerate() {
        text += &format!("row {row} insert {room} {longest} present {longest}\n");
    }
    text += "log";
    (0..64).for_each(|row| text += &format!(" {row}"));
    text += "\n";
    for (cell, room) in rooms.iter().enumerate() {
        text += &format!("cell {cell} {room} {longest}\n");
    }
    handed(text.as_bytes(), &|out| calls::report(&file, out));
}

fn every_length_up_to_a_whole_text(file: &[u8]) {
    let mut text = Vec::new();
    model::report(file, &mut text);
    for length in 0..text.len() {
        let (written, out) = into(length, &|out| calls::report(file, out));
        assert_eq!((written.number, written.place, written.length), (3, 0, 0));
        assert!(out.iter().all(|&byte| byte == 0x55));
    }
}

#[test]
fn every_length_up_to_the_texts_of_two_examples() {
    every_length_up_to_a_whole_text(include_bytes!("../../../examples/run-in-full.run"));
    every_length_up_to_a_whole_text(include_bytes!("../../../examples/hospital.run"));
}

calls::in_both_widths! {
    reports,
    a_text_of_all_cells_and_operations,
}
