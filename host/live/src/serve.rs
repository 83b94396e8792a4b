//! The loop that waits for clients, signals and the clock, beside the thread that serves the packets.

use crate::config::reload::Reload;
use crate::control::Control;
use crate::handover::give;
use crate::handover::snapshot::Snapshot;
use crate::instance::Instance;
use crate::log::Log;
use crate::packet_thread::PacketThread;
use crate::system::signals::{Meaning, Signal, Signals};
use crate::system::{self, Waited};
use std::os::fd::AsFd;
use std::os::unix::net::UnixStream;
use std::time::Instant;

/// Why a director is served no more by this process.
#[derive(Clone, Copy, Debug, PartialEq, Eq)]
pub enum End {
    /// That signal has come.
    Signal(Signal),
    /// Another process serves it.
    HandedOver,
}

/// The director at its end; an error means that the device is gone.
pub type Ended = (Instance, Result<End, String>);

/// What serves, beside the director itself.
#[derive(Debug)]
pub struct Around<'a> {
    /// The thread that serves the packets.
    pub packets: PacketThread,
    /// The clients of the control socket.
    pub control: Control,
    /// Where the signals are read.
    pub signals: Signals,
    /// The configuration read anew.
    pub reload: Reload,
    /// The log.
    pub log: &'a mut Log,
}

impl Around<'_> {
    /// Serves until a signal comes, another process takes over or the device goes.
    pub fn serve(&mut self, mut instance: Instance) -> Ended {
        loop {
            let (next_tick, taker) = self.turn(&mut instance);
            if taker.is_some_and(|stream| self.hand_over(&instance, stream)) {
                return (instance, Ok(End::HandedOver));
            }
            self.packets.lend(instance);
            let asked = self.wait_until_needed(next_tick);
            let (back, served) = self.packets.take_back();
            instance = back;
            match asked.and_then(|asked| served.map(|()| asked)) {
                Err(complaint) => return (instance, Err(complaint)),
                Ok(Asked { end: Some(signal), .. }) => return (instance, Ok(End::Signal(signal))),
                Ok(Asked { reload: true, .. }) => self.reload_by_signal(&mut instance),
                Ok(_) => {}
            }
        }
    }

    /// What is done between two calls of the packet thread; tells when the clock shows another second, and who is to take
    /// over.
    fn turn(&mut self, instance: &mut Instance) -> (Instant, Option<UnixStream>) {
        let (now, since_boot) = (Instant::now(), system::since_boot());
        // first the tick: what a command tells is true at the clock that it tells
        instance.tick(since_boot);
        let taker = self.control.answer(instance, &mut self.reload, self.log, now);
        // also what the tick had to send: nothing may wait here when the director is handed over
        instance.send(self.packets.device());
        self.log.look(instance);
        (now + instance.until_tick(since_boot), taker)
    }

    /// Talks with the clients until there is something to do for which the director is needed; tells what signals ask for.
    fn wait_until_needed(&mut self, next_tick: Instant) -> Result<Asked, String> {
        let mut files = Vec::new();
        loop {
            self.wait(&mut files, next_tick)?;
            let now = Instant::now();
            self.control.exchange(&files[2..], self.log, now);
            let asked = if files[1].is_ready() { self.take_signals() } else { Asked::default() };
            if asked.reload || self.control.asks_for_reload() {
                self.reload.read();
            }
            let is_over = files[0].is_ready() || asked.end.is_some();
            if is_over || asked.reload || now >= next_tick || self.control.needs_director(now) {
                return Ok(asked);
            }
        }
    }

    /// Waits until something happens: `files` are then the packet thread's end, the signals, and those of the control socket.
    fn wait(&self, files: &mut Vec<Waited>, next_tick: Instant) -> Result<(), String> {
        let now = Instant::now();
        files.clear();
        files.extend([self.packets.waited(), Waited::new(&self.signals, true, false)]);
        self.control.add_waited(files, now);
        let tick = next_tick.saturating_duration_since(now);
        let time = self.control.time_left(now).map_or(tick, |left| left.min(tick));
        system::wait(files, time).map_err(|error| format!("waiting for clients failed: {error}"))
    }

    /// Takes the signals that have come.
    fn take_signals(&mut self) -> Asked {
        let mut asked = Asked::default();
        for signal in self.signals.read() {
            match signal.meaning() {
                Meaning::End => asked.end = asked.end.or(Some(signal)),
                Meaning::Reload => asked.reload = true,
                Meaning::Nothing => self.log.info(&format!("{signal} is ignored")),
            }
        }
        asked
    }

    fn reload_by_signal(&mut self, instance: &mut Instance) {
        match self.reload.apply(instance) {
            Ok(changes) => self.log.tell_reload(&changes, "reload"),
            Err(complaint) => self.log.error(&format!("reload: {complaint}")),
        }
    }

    /// Hands the director over; tells whether the other process serves it now.
    fn hand_over(&mut self, instance: &Instance, taker: UnixStream) -> bool {
        let begin = Instant::now();
        let process = system::peer(&taker).map_or(0, |peer| peer.process);
        let snapshot = Snapshot::of(instance, self.log);
        let (device, listener) = (self.packets.device(), self.control.as_fd());
        let handed = give::give(taker, &snapshot, device, listener);
        // so long no packet was served
        let time = format!("after {:.1} ms", 1e3 * begin.elapsed().as_secs_f64());
        let connections = instance.director().used();
        match &handed {
            Ok(()) => {
                let words = format!("handed {connections} connections over to process {process}");
                self.log.notice(&format!("{words} {time}"));
                self.control.leave();
            }
            Err(reason) => {
                let words = format!("not handed over to process {process}: {reason}");
                self.log.error(&format!("{words}; serving on {time}"));
            }
        }
        handed.is_ok()
    }
}

/// What the signals of a turn ask for.
#[derive(Debug, Default)]
struct Asked {
    end: Option<Signal>,
    reload: bool,
}
