// A braille line that says how much room is left for what the meter sends. It comes with the bytes and
// with the readings, so the app makes no call of its own for it.
use raftershim::{Meter, Notes, Reading, Refusal, Stores};

fn main() -> Result<(), Refusal> {
    let stores = Stores {
        receive: [0; 8],
        transmit: [0; 3],
    };
    let notes = Notes {
        gaps: [0; 1],
        text: [0; 32],
    };
    let mut meter = Meter::create(stores, notes, 3)?;
    let mut shown = None;
    let mut braille = |room| {
        if shown.replace(room) != Some(room) {
            println!("braille line: room for {room}");
        }
    };
    for burst in ["2.5\r\n", "12.75\r\n3.", "5\r\n"] {
        braille(meter.line_bytes_and_room(burst.as_bytes())?.room);
        loop {
            let read = meter.reading_and_room()?;
            braille(read.room);
            match read.answer {
                Reading::Whole(text) => println!("{text} volts"),
                Reading::Gap(_) => println!("a byte is missing, measure again"),
                _ => break,
            }
        }
    }
    Ok(())
}
