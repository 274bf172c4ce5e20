// Status polling: the bridge asks for service when a byte is lost, and the status byte says why.
use raftershim::{Address, Bridge, Frame, LineByte, Refusal, Register, StatusByte, Stores};

type Polled = Bridge<[u16; 4], [u8; 3]>;

fn main() -> Result<(), Refusal> {
    let stores = Stores {
        receive: [0; 4],
        transmit: [0; 3],
    };
    let mut bridge: Polled = Bridge::create(stores, 1)?;
    let asking = Register::R00_SHOW_REQUESTS | Register::R00_OVERRUN;
    bridge.write_register(Register::R00, asking)?;
    say("before it is talker", &mut bridge)?;
    bridge.loop_frame(Frame::auto_address(Address::FIRST))?;
    bridge.loop_frame(Frame::talk_address(Address::FIRST))?;
    say("at first", &mut bridge)?;
    for byte in *b"12.55" {
        if bridge.line_byte(byte)? == LineByte::Lost {
            println!("lost: {}", char::from(byte));
        }
    }
    let identify = Frame::new(6, 0)?;
    let asks = bridge.loop_frame(identify)?.asks_service();
    println!("asks for service: {asks}");
    say("then", &mut bridge)?;
    say("told, so then", &mut bridge)
}

fn say(when: &str, bridge: &mut Polled) -> Result<(), Refusal> {
    match poll(bridge)? {
        Some(status) => println!("{when}: {status}"),
        None => println!("{when}: no status"),
    }
    Ok(())
}

// Asks for the status byte and gives it back, so that the bridge knows that it was told. One that
// comes back changed is not believed, and is asked for again. A bridge that is not talker passes the
// question on, so what is no data is no status.
fn poll(bridge: &mut Polled) -> Result<Option<StatusByte>, Refusal> {
    loop {
        let status = bridge.loop_frame(Frame::SEND_STATUS)?;
        if !status.is_data() {
            return Ok(None);
        }
        if bridge.loop_frame(status)? == Frame::END_OF_TRANSMISSION {
            return Ok(Some(status.data().into()));
        }
    }
}
