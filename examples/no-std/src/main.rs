//! The crate on a chip without a divide instruction and without the standard library: a meter's ten
//! readings, of which one has lost its point, through a store of eight cells. The last line is the
//! room that was left before each reading.
//!
//! `sh examples/run.sh` runs it on the emulated board. The C library of the board brings what an
//! archive asks of its surroundings, and the console.
#![no_std]
#![no_main]

use raftershim::{Meter, Notes, Reading, Refusal, Register, Stores};

/// What the meter sends before each time that it is read. Once the loop is late, and the point of
/// 2.5 comes when the store is full.
const LINE: [&str; 10] = [
    "7\r\n",
    "0.5\r\n",
    "12.75\r\n2.",
    "5\r\n",
    "2.5\r\n",
    "-1.5\r\n",
    "3.25\r\n",
    "4\r\n",
    "88.8\r\n",
    "9.75\r\n",
];

extern "C" {
    fn putchar(character: i32) -> i32;
    fn abort() -> !;
}

fn print(text: &[u8]) {
    for &byte in text {
        // SAFETY: the C library takes any character.
        unsafe { putchar(i32::from(byte)) };
    }
}

fn print_reading(reading: Reading) {
    let (text, said) = match reading {
        Reading::Whole(text) => (text, "whole"),
        Reading::Gap(text) => (text, "a byte is missing"),
        _ => return print(b"not ended\n"),
    };
    print(text.as_bytes());
    print(b": ");
    print(said.as_bytes());
    print(b"\n");
}

/// A room of a store of eight cells has one digit.
fn print_rooms(rooms: [u16; LINE.len()]) {
    print(b"room before each reading:");
    for room in rooms {
        print(&[b' ', b'0' + room as u8]);
    }
    print(b"\n");
}

fn readings() -> Result<(), Refusal> {
    let stores = Stores {
        receive: [0; 8],
        transmit: [0; 3],
    };
    let notes = Notes {
        gaps: [0; 8],
        text: [0; 16],
    };
    let mut meter = Meter::create(stores, notes, 1)?;
    meter.write_register(Register::R11, 0)?;
    let mut rooms = [0; LINE.len()];
    for (room, bytes) in rooms.iter_mut().zip(LINE) {
        *room = meter.line_bytes_and_room(bytes.as_bytes())?.room;
        print_reading(meter.reading()?);
    }
    print_rooms(rooms);
    Ok(())
}

/// The start of the C library calls this.
#[no_mangle]
pub extern "C" fn main() -> i32 {
    readings().map_or(1, |()| 0)
}

#[panic_handler]
fn panicked(_: &core::panic::PanicInfo) -> ! {
    // SAFETY: it takes nothing and does not come back.
    unsafe { abort() }
}
