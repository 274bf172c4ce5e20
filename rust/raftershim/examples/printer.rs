// A printer on the line: the loop sends it two lines, and is told busy while it is slow.
use raftershim::{Address, Bridge, Frame, Refusal, Register, Stores};

type Printer = Bridge<[u16; 64], [u8; 8]>;

fn main() -> Result<(), Refusal> {
    let stores = Stores {
        receive: [0; 64],
        transmit: [0; 8],
    };
    let mut bridge: Printer = Bridge::create(stores, 8)?;
    bridge.write_register(Register::R10, Register::R10_ADD_LINE_END)?;
    bridge.loop_frame(Frame::auto_address(Address::FIRST))?;
    bridge.loop_frame(Frame::listen_address(Address::FIRST))?;
    for line in ["2.5 volts", "good"] {
        let last = line.len() - 1;
        for (place, byte) in line.bytes().enumerate() {
            let end = place == last;
            let frame = [Frame::data_byte(byte), Frame::end_byte(byte)][usize::from(end)];
            send(&mut bridge, frame)?;
        }
    }
    print(&mut bridge)
}

// Sends a frame. While the bridge is busy, the printer takes what waits, and the frame is sent again.
fn send(bridge: &mut Printer, frame: Frame) -> Result<(), Refusal> {
    loop {
        match bridge.loop_frame(frame) {
            Err(Refusal::BUSY) => {
                println!("busy at {frame}");
                print(bridge)?;
            }
            passed => return passed.map(|_| ()),
        }
    }
}

// The printer gets all that waits for the line. A byte is gone when it is taken, after it was
// printed.
fn print(bridge: &mut Printer) -> Result<(), Refusal> {
    let mut printed = String::new();
    while let Some(next) = bridge.ask_line_byte()? {
        printed.push(next.byte().into());
        next.take()?;
    }
    println!("printed {printed:?}");
    Ok(())
}
