//! A firmware loop over a simulated line: what to call when, and what to do with each
//! number that comes back.

use rawdhusaq::*;

/// What the loop finds on a pass.
#[derive(Clone, Copy, Default)]
struct Pass {
    /// Bytes that have come over the line.
    bytes: &'static [u8],
    /// The safety sensors: wheel drop, cliff, powered charger.
    sensors: (bool, bool, bool),
    /// The song that played is over.
    song_ended: bool,
    /// The link is down, or was silent for too long. The board has no clock: it is for
    /// the firmware to see this.
    driver_gone: bool,
    /// For the sake of the example: something writes into the record.
    damage: bool,
}

const NOTHING: Pass = Pass {
    bytes: &[],
    sensors: (false, false, false),
    song_ended: false,
    driver_gone: false,
    damage: false,
};

const fn came(bytes: &'static [u8]) -> Pass {
    Pass { bytes, ..NOTHING }
}

/// An hour at the clinic, in short.
const PASSES: &[Pass] = &[
    NOTHING,
    came(&[128, 131, 140, 0, 1, 69, 64, 141, 0]),
    // A frame may come in pieces, and two in one piece.
    came(&[137, 0]),
    came(&[200, 1, 244, 149, 3, 35, 39, 40]),
    Pass {
        song_ended: true,
        ..NOTHING
    },
    came(&[148, 2, 29, 13]),
    came(&[146, 137, 1, 245, 1, 244]),
    // The cliff was seen before these orders, and is seen still: no wheel turns.
    Pass {
        bytes: &[131, 137, 0, 200, 1, 244],
        sensors: (false, true, false),
        ..NOTHING
    },
    came(&[132, 145, 0, 100, 0, 100, 138, 7, 140, 0, 255]),
    // Orders that were on the way when the link went are not given to the board.
    Pass {
        bytes: &[131, 145, 0, 100, 0, 100],
        driver_gone: true,
        ..NOTHING
    },
    Pass {
        damage: true,
        ..NOTHING
    },
    came(&[128, 131, 137, 0, 100, 127, 255]),
    Pass {
        driver_gone: true,
        ..NOTHING
    },
];

struct Firmware {
    board: State,
    /// What the sensors say; a real one reads them on each pass.
    image: [u8; IMAGE_SIZE],
    /// Long enough for any answer, so that no call gives 7.
    buffer: [u8; LONGEST_ANSWER],
}

impl Firmware {
    fn new() -> Firmware {
        Firmware {
            board: State::power_on(),
            image: [0; IMAGE_SIZE],
            buffer: [0; LONGEST_ANSWER],
        }
    }

    /// Bytes, the report, the song, a chunk, and then the motors: once, and behind the
    /// report, so that no order turns a wheel which the report stops.
    fn pass(&mut self, found: &Pass) {
        if found.damage {
            self.board.mode = 77;
        }
        if found.driver_gone {
            self.stop();
        } else {
            self.read(found.bytes);
        }
        let (drop, cliff, charger) = found.sensors;
        let number = self.board.safety_report(drop, cliff, charger);
        self.act_on("report", number, 0);
        if found.song_ended {
            let number = self.board.song_end();
            self.act_on("song end", number, 0);
        }
        let reply = self.board.tick(&self.image, &mut self.buffer);
        self.act_on("tick", reply.number, reply.length);
        self.set_motors();
    }

    /// Gives bytes to the board, frame by frame: an answer is sent before the next frame
    /// is read.
    fn read(&mut self, bytes: &[u8]) {
        let mut left = bytes;
        while !left.is_empty() {
            let reply = self.board.run(left, &self.image, &mut self.buffer);
            left = reply.rest(left);
            self.act_on("bytes", reply.number, reply.length);
            if reply.number == BAD_RECORD {
                // What is left was meant for the board as it was. The host has to begin
                // anew with 128.
                return;
            }
        }
    }

    /// What to do with each number.
    fn act_on(&mut self, call: &str, number: u8, length: usize) {
        match number {
            DONE if length > 0 => send(self.buffer.get(..length).unwrap_or_default()),
            DONE | WAITING => {}
            WRONG_MODE if call == "tick" => {} // nothing is streamed in Off
            UNKNOWN | NOT_OFFERED => log(call, number, "bytes may have been lost or added"),
            WRONG_MODE => log(call, number, "not in this mode"),
            NOT_LEGAL => log(call, number, "data out of range; the order before it stays"),
            NO_SONG | BUSY => log(call, number, "not played"),
            NO_ROOM => log(call, number, "the buffer is too short"),
            _ => self.restart(call, number),
        }
    }

    /// The record is damaged, and the board can stop nothing any more.
    fn restart(&mut self, call: &str, number: u8) {
        log(call, number, "bad record: motors cut, power-on");
        cut_motors();
        self.board = State::power_on();
    }

    /// 511 bytes 128, whatever is half read. What the line still holds is thrown away: an
    /// old order would move the robot once more.
    fn stop(&mut self) {
        println!("  the driver is gone");
        let number = if self.board.stop(&self.image) {
            DONE
        } else {
            BAD_RECORD
        };
        self.act_on("stop", number, 0);
    }

    /// Brings the motors to what the record says: a call that stops them does so in the
    /// record alone.
    fn set_motors(&mut self) {
        // The orders of a record that was hit since the last call are not to be trusted.
        if !self.board.accepts() {
            self.restart("motors", BAD_RECORD);
        }
        let speeds = self.board.wheel_speeds();
        let (mode, duties) = (self.board.mode, self.board.motors.duties);
        println!(
            "  mode {mode}, right {}, left {}, duties {duties:?}",
            speeds.right, speeds.left
        );
    }
}

/// Stands for the line to the host.
fn send(bytes: &[u8]) {
    println!("  sent {bytes:?}");
}

/// Stands for the switch of the motors' current.
fn cut_motors() {
    println!("  motors cut");
}

fn log(call: &str, number: u8, what: &str) {
    println!("  {call}: {number}, {what}");
}

fn main() {
    let mut firmware = Firmware::new();
    for (turn, found) in PASSES.iter().enumerate() {
        println!("pass {turn}");
        firmware.pass(found);
    }
    assert!(firmware.board.mode == PASSIVE && firmware.board.motors.are_off());
}
