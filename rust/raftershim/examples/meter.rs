// Ten readings of a meter. When the point of 2.5 comes, the receive store is full.
use raftershim::{Meter, Notes, Reading, Refusal, Stores};

fn main() -> Result<(), Refusal> {
    let stores = Stores {
        receive: [0; 6],
        transmit: [0; 3],
    };
    let notes = Notes {
        gaps: [0; 1],
        text: [0; 32],
    };
    let mut meter = Meter::create(stores, notes, 2)?;
    // What has come each time the app looks. Once it is late, and one reading comes in two parts.
    let (late, rest) = ("1.5\r\n2.", "5\r\n");
    let bursts = [
        "0.5\r\n", late, rest, "3.5\r\n", "4.5\r\n", "5.5\r\n", "6.5\r\n", "7.5\r\n", "8.5\r\n",
        "9.5\r\n",
    ];
    for burst in bursts {
        meter.line_bytes(burst.as_bytes())?;
        loop {
            match meter.reading()? {
                Reading::Whole(text) => println!("{text} volts"),
                Reading::Gap(_) => println!("a byte is missing, measure again"),
                _ => break,
            }
        }
    }
    Ok(())
}
