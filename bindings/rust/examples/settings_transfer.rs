//! A trip-settings file goes from a maker's server to an unattended inverter over a link that loses, repeats and reorders.
//!
//! The file is written in pieces as the buffer takes them, and the stream is closed by a write of no bytes. Frames are sent,
//! lost ones are reported and sent again, what arrives is acked and dropped. At the end both sides must hold the same final
//! size, and the file must be the same byte for byte: only then does the inverter take the new limits.

use valemkhor::RecvBuf;
use valemkhor::Refusal;
use valemkhor::SendBuf;

const FRAME: usize = 120;
const ARENA: usize = 2048;

/// A frame on the link.
#[derive(Clone)]
struct Frame {
    off: u64,
    bytes: Vec<u8>,
    fin: bool,
}

/// The link: a small generator of numbers decides what is lost, repeated and overtaken.
struct Link {
    dice: u64,
    lost: u64,
    repeated: u64,
}

impl Link {
    fn below(&mut self, n: u64) -> u64 {
        self.dice ^= self.dice << 13;
        self.dice ^= self.dice >> 7;
        self.dice ^= self.dice << 17;
        self.dice % n
    }
}

fn settings() -> Vec<u8> {
    (0..200)
        .flat_map(|feeder| format!("feeder {feeder}: trip above {} V\n", 240 + feeder % 20).into_bytes())
        .collect()
}

fn main() -> Result<(), Refusal> {
    let file = settings();
    let mut link = Link {
        dice: 0x9e37_79b9_7f4a_7c15,
        lost: 0,
        repeated: 0,
    };
    let mut send = SendBuf::new(1000, ARENA)?;
    let mut recv = RecvBuf::new(1000, 4000, ARENA)?;
    let (mut written, mut closed, mut copy, mut sent, mut now) = (0, false, Vec::new(), 0, 0);

    while !(closed && recv.is_fin()) {
        // Write what the buffer takes; the write of no bytes closes the stream.
        if written < file.len() {
            match send.write(&file[written..file.len().min(written + 500)], false) {
                Ok(n) => written += n,
                Err(Refusal::NoRoom) => {}
                Err(refusal) => return Err(refusal),
            }
        } else if !closed {
            send.write(b"", true)?;
            closed = true;
        }

        // Send a flight of frames.
        let mut flight = Vec::new();
        for _ in 0..8 {
            let off = send.off_front();
            let mut room = [0; FRAME];
            let (n, fin) = send.emit(&mut room)?;
            if n > 0 || fin {
                flight.push(Frame {
                    off,
                    bytes: room[..n].to_vec(),
                    fin,
                });
                sent += 1;
            }
        }

        // The link loses every fifth frame or so, repeats some, and delivers in any order.
        let mut arriving = Vec::new();
        for frame in flight {
            if link.below(5) == 0 {
                link.lost += 1;
                send.retransmit(frame.off, frame.bytes.len() as u64)?;
                continue;
            }
            if link.below(7) == 0 {
                link.repeated += 1;
                arriving.push(frame.clone());
            }
            let at = link.below(arriving.len() as u64 + 1) as usize;
            arriving.insert(at, frame);
        }
        for frame in arriving {
            match recv.write(frame.off, &frame.bytes, frame.fin) {
                Ok(()) => {
                    send.ack_and_drop(frame.off, frame.bytes.len() as u64)?;
                }
                Err(Refusal::NoRoom | Refusal::TableFull) => {
                    send.retransmit(frame.off, frame.bytes.len() as u64)?;
                }
                Err(refusal) => return Err(refusal),
            }
        }

        // Read what is ready, and grant more credit when it is due.
        let mut out = [0; 256];
        while let Ok((n, _)) = recv.emit(&mut out) {
            copy.extend_from_slice(&out[..n]);
        }
        now += 1000;
        if recv.almost_full() {
            recv.autotune_window(now, 2000);
            recv.update_max_data(now);
            send.update_max_data(recv.max_data())?;
        }
    }

    assert_eq!(copy, file);
    assert_eq!((send.off_back(), recv.off_front()), (file.len() as u64, file.len() as u64));
    println!(
        "{} bytes arrived whole: {sent} frames sent, {} lost, {} repeated",
        copy.len(),
        link.lost,
        link.repeated
    );
    Ok(())
}
