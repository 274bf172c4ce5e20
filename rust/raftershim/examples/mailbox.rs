// A meter on the bus leaves two readings in a mailbox, and the loop fetches them. The second is too
// long for the mailbox: the bus is told busy, and nothing is lost.
use raftershim::{Address, BusByte, BusCommand, Frame, Mailbox, Refusal, Ways};

type Small = Mailbox<[u16; 4], [u16; 4]>;

fn main() -> Result<(), Refusal> {
    let ways = Ways {
        to_bus: [0; 4],
        to_loop: [0; 4],
    };
    let mut mailbox: Small = Mailbox::create(ways, 7)?;
    // The bus makes the mailbox its listener. The loop gives it an address and makes it talker.
    mailbox.bus_command(BusCommand::mla(mailbox.bus_address()))?;
    mailbox.loop_frame(Frame::auto_address(Address::FIRST))?;
    mailbox.loop_frame(Frame::talk_address(Address::FIRST))?;
    let mut heard = String::new();
    for reading in ["2.5", "12.345"] {
        println!("the bus leaves {reading}");
        let last = reading.len() - 1;
        for (place, byte) in reading.bytes().enumerate() {
            // The last byte has EOI.
            leave(&mut mailbox, byte, place == last, &mut heard)?;
        }
        fetch(&mut mailbox, &mut heard)?;
    }
    Ok(())
}

// The bus leaves a byte. While the way is full, the loop fetches, and the byte is offered again.
fn leave(mailbox: &mut Small, byte: u8, eoi: bool, heard: &mut String) -> Result<(), Refusal> {
    loop {
        match mailbox.bus_byte(byte, eoi) {
            Err(Refusal::BUSY) => {
                println!("busy at {}, so the loop fetches first", char::from(byte));
                fetch(mailbox, heard)?;
            }
            left => {
                if left? != BusByte::Kept {
                    println!("the mailbox is not listener, so nobody keeps the byte");
                }
                return Ok(());
            }
        }
    }
}

// The loop fetches what waits. Each data frame comes back round the loop and brings the next one. A
// reading is whole when its end byte has come.
fn fetch(mailbox: &mut Small, heard: &mut String) -> Result<(), Refusal> {
    let mut frame = mailbox.loop_frame(Frame::SEND_DATA)?;
    while frame.is_data() {
        heard.push(frame.data().into());
        if frame.is_end() {
            println!("the loop hears {heard} volts");
            heard.clear();
        }
        frame = mailbox.loop_frame(frame)?;
    }
    Ok(())
}
