#!/bin/sh
# Has guests of bench/guests.py come in at doors over the sockets of this machine, well and ill, and compares what is
# said of each with what docs/http.md says of doors over sockets. It needs a C compiler. Outside the gate, over
# libraries that `rt ci` has proved: bench/doors.sh
# shellcheck source=bench/common.sh
. "$(dirname "$0")/common.sh"

make_crate 'door_trials: outside_socket_doors outside_doors outside_polling outside_traits anyhow' <<'EOF'
//! Follows the lines of its input at doors over sockets, and says what came of each: `open LOCATION`; `accept`, `rest`
//! and `shut` of the door that was opened last; `look`, `read`, `write TEXT`, `fill COUNT` and `back` of the wire that
//! came last, of which `read`, `write` and `fill` rest as long as it can move nothing; `doors`, what each door told that
//! was shut: connections, waits and failures; `wires`, what was told of each wire that went back: `l` where a read
//! failed, `c` where a write did, `e` where a read told the end; and `told`, where the waits are those of doors.
#![tactic(auto)]

use outside_doors::{Door, Doors, Accept};
use outside_polling::{PollWire, Ready};
use outside_socket_doors::{DoorWire, Patience, SocketDoor, SocketDoors};
use outside_traits::Failed;
use std::alloc::{AllocError, Global};
use std::io::Eprint;
use std::net::Net;
use std::rt::Clock;
use std::time::Duration;

#[derive(Drop)]
struct House<H: Net + Clock + Eprint + Copy + Drop> {
    alloc: Global,
    doors: SocketDoors<H>,
    open: Vec<SocketDoor<H>>,
    wires: Vec<DoorWire<H>>,
}

fn main(rt: HostRuntime) -> anyhow::Result<()> {
    let alloc = rt.alloc();
    let mut house = House {
        alloc,
        doors: SocketDoors::new(alloc, &rt, patience(), None),
        open: Vec::new(alloc),
        wires: Vec::new(alloc),
    };
    for line in rt.lines(alloc) {
        let said = house.follow(line?.as_str())?;
        println!(rt; "{said}")?;
    }
    Ok(())
}

fn patience() -> Patience {
    Patience {
        idle: Duration::from_millis(600),
        request: Duration::from_millis(3_000),
        answer: Duration::from_millis(900),
        rest: Duration::from_millis(400),
    }
}

impl<H: Net + Clock + Eprint + Copy + Drop> House<H> {
    fn follow(&mut self, line: &str) -> Result<String, AllocError> {
        let (verb, rest) = line.split_once(' ').unwrap_or((line, ""));
        match verb {
            "open" => self.open(rest),
            "accept" => self.accept(),
            "rest" => self.rest(),
            "shut" => self.shut(),
            "look" => self.read(1),
            "read" => self.read(u64::MAX),
            "write" => self.write(rest.as_bytes()),
            "fill" => self.fill(rest.parse().unwrap_or(0)),
            "back" => self.back(),
            "doors" => self.returned_doors(),
            "wires" => self.returned_wires(),
            _ => self.told(),
        }
    }

    fn say(&self, text: &str) -> Result<String, AllocError> {
        String::from_str(self.alloc, text)
    }

    fn open(&mut self, location: &str) -> Result<String, AllocError> {
        match self.doors.open(location) {
            Ok(door) => {
                self.open.push(door)?;
                self.say("opened")
            }
            Err(_) => self.say("failed"),
        }
    }

    fn accept(&mut self) -> Result<String, AllocError> {
        let Some(door) = self.open.last_mut() else {
            return self.say("no door");
        };
        match door.try_accept() {
            Ok(Accept::Came(wire)) => {
                self.wires.push(wire)?;
                self.say("came")
            }
            Ok(Accept::NotYet) => self.say("not yet"),
            Ok(Accept::Closed) => self.say("closed"),
            Err(_) => self.say("failed"),
        }
    }

    fn rest(&mut self) -> Result<String, AllocError> {
        self.pause();
        self.say("rested")
    }

    fn shut(&mut self) -> Result<String, AllocError> {
        if let Some(door) = self.open.pop() {
            self.doors.door_back(door);
        }
        self.say("shut")
    }

    /// Tries so often to read, with a rest between.
    fn read(&mut self, tries: u64) -> Result<String, AllocError> {
        let mut bytes = [0_u8; 64];
        for _ in 0..tries {
            let Some(wire) = self.wires.last_mut() else {
                return self.say("no wire");
            };
            match wire.try_read(&mut bytes) {
                Ok(Ready::Done(count)) => {
                    let text = std::str::from_utf8(&bytes[..count]).unwrap_or("?");
                    return format!(in self.alloc; "read {text}");
                }
                Ok(Ready::NotYet) if tries == 1 => {}
                Ok(Ready::NotYet) => self.pause(),
                Err(Failed) => return self.say("failed"),
            }
        }
        self.say("nothing yet")
    }

    fn write(&mut self, bytes: &[u8]) -> Result<String, AllocError> {
        match self.written(bytes) {
            Ok(count) => format!(in self.alloc; "wrote {count}"),
            Err(Failed) => self.say("failed"),
        }
    }

    /// Writes so many pieces.
    fn fill(&mut self, count: u32) -> Result<String, AllocError> {
        for _ in 0..count {
            if self.written(&[b'x'; 4_096]).is_err() {
                return self.say("failed");
            }
        }
        self.say("filled")
    }

    /// How many of the bytes the last wire takes, once it takes some.
    fn written(&mut self, bytes: &[u8]) -> Result<usize, Failed> {
        for _ in 0..u64::MAX {
            let Some(wire) = self.wires.last_mut() else {
                return Err(Failed);
            };
            match wire.try_write(bytes)? {
                Ready::Done(count) => return Ok(count),
                Ready::NotYet => self.pause(),
            }
        }
        Err(Failed)
    }

    fn pause(&mut self) {
        if let Some(door) = self.open.last_mut() {
            door.rest();
        }
    }

    fn back(&mut self) -> Result<String, AllocError> {
        if let Some(wire) = self.wires.pop() {
            self.doors.wire_back(wire);
        }
        self.say("back")
    }

    fn returned_doors(&mut self) -> Result<String, AllocError> {
        let mut said = String::new(self.alloc);
        for door in self.doors.returned_doors() {
            let (wires, waits, faults) = (door.wires(), door.waits(), door.faults());
            let one = format!(in self.alloc; "{wires} {waits} {faults};")?;
            said.push_str(one.as_str())?;
        }
        Ok(said)
    }

    fn returned_wires(&mut self) -> Result<String, AllocError> {
        let mut said = String::new(self.alloc);
        for wire in self.doors.returned() {
            let lost = if wire.is_lost() { "l" } else { "" };
            let cut = if wire.is_cut() { "c" } else { "" };
            let ended = if wire.has_ended() { "e" } else { "" };
            let one = format!(in self.alloc; "{lost}{cut}{ended};")?;
            said.push_str(one.as_str())?;
        }
        Ok(said)
    }

    fn told(&mut self) -> Result<String, AllocError> {
        let counts = self.doors.counts();
        let (opened, back, ended) = (counts.opened(), counts.doors_back(), counts.doors_ended());
        let (given, wires) = (counts.wires_given(), counts.wires_back());
        let (lost, cut) = (counts.wires_lost(), counts.wires_cut());
        let mut waits = 0_u64;
        for door in self.doors.returned_doors() {
            waits = waits.saturating_add(door.waits());
        }
        let faults = self.doors.faults();
        let doors = format!(in self.alloc; "doors {opened} {back} {ended} wires {given} {wires} {lost} {cut}")?;
        format!(in self.alloc; "{doors} waits {waits} faults {faults}")
    }
}
EOF
build_over_proved
cc -shared -fPIC -O1 -o "$work/accept.so" "$top/bench/accept.c" -ldl
python3 "$top/bench/guests.py" "$work/crates/$name/out/$name" "$work/accept.so"
