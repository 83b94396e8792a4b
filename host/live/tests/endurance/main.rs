//! The real daemon under damage, floods, a full table, a device that goes down, and bad clients.
//!
//! Each test makes a network namespace of its own for its thread, so nothing outside sees a packet. What the daemon should
//! answer to each packet is told by the second implementation (the crate `reference`), which shares no code with it.

mod clients;
mod counts;
mod daemon;
mod damage;
mod defence;
mod earlier_program;
mod endings;
mod ends;
mod floods;
#[path = "../shared/json.rs"]
mod json;
mod killed;
#[path = "../shared/layouts.rs"]
mod layouts;
mod link;
mod listings;
mod logs;
mod model;
mod operators;
#[path = "../shared/own_path.rs"]
mod own_path;
mod packets;
mod place;
mod reloads;
mod restarts;
mod rig;
mod service;
mod signals;
mod stand_ins;
mod state_files;
mod takeovers;
mod waits;

use rig::Rig;
use service::Service;

/// Runs a test in a network namespace of its own, or says that it was left out.
fn in_own_network(name: &str, test: impl FnOnce()) {
    match link::enter_own_network() {
        Ok(()) => test(),
        Err(reason) => link::say(&format!("{name} WAS LEFT OUT: {reason}")),
    }
}

#[test]
fn packets_of_all_kinds() {
    in_own_network("endurance of packets", || {
        let mut rig = Rig::start("packets");
        packets::damaged_packets(&mut rig);
        packets::damaged_headers(&mut rig);
        packets::other_services(&mut rig);
        packets::full_table(&mut rig);
        packets::every_weight_zero(&mut rig);
        packets::device_down_and_up(&mut rig);
        rig.daemon.end_by("TERM");
    });
}

#[test]
fn clients_of_all_kinds() {
    in_own_network("endurance of the control socket", || {
        let mut rig = Rig::start("clients");
        let silent = clients::SilentClient::new(&rig);
        let watcher = clients::Watcher::new(&rig);
        clients::wrong_commands(&mut rig);
        clients::garbage(&mut rig);
        clients::two_hundred(&mut rig);
        clients::too_many_watchers(&mut rig);
        clients::other_users(&mut rig);
        clients::a_watch_that_reads(&mut rig);
        watcher.must_be_closed(&mut rig);
        silent.must_be_closed(&mut rig);
        rig.daemon.end_by("INT");
    });
}

#[test]
fn starts_and_ends() {
    in_own_network("endurance of starts and ends", || {
        endings::second_director();
        endings::other_interfaces();
        endings::stale_socket();
        endings::file_in_the_way();
        endings::deleted_device();
        endings::idle_connections();
        endings::ticks_in_silence();
        endings::idle_daemon();
    });
}

#[test]
fn floods_of_packets() {
    in_own_network("endurance of floods", || {
        floods::commands_while_packets_pass();
        floods::status_under_a_flood();
        floods::device_deleted_under_a_flood();
    });
}

#[test]
fn signals_of_all_kinds() {
    in_own_network("endurance of signals", || {
        let mut rig = Rig::start("signals");
        signals::interrupts(&mut rig);
        signals::ignored(&mut rig);
        signals::flood(&mut rig);
        rig.daemon.end_by("QUIT");
    });
}

#[test]
fn logs_and_what_is_in_them() {
    in_own_network("endurance of the log", || {
        let mut rig = Rig::start("log");
        logs::drained_server(&mut rig);
        logs::full_table(&mut rig);
        rig.daemon.end_by("TERM");
        logs::handed_on();
        logs::full_devices();
        logs::unread_log();
        logs::closed_log();
    });
}

#[test]
fn reloads() {
    in_own_network("endurance of reloads", || {
        let mut rig = Rig::start("reloads");
        reloads::changed_weights(&mut rig);
        reloads::unchanged_file(&mut rig);
        reloads::bad_files(&mut rig);
        rig.daemon.end_by("TERM");
    });
}

#[test]
fn takeovers_by_processes() {
    in_own_network("endurance of take-overs", || {
        let mut rig = Rig::start("takeovers");
        takeovers::ten_in_a_row(&mut rig);
        takeovers::changed_weights(&mut rig);
        takeovers::other_configurations(&mut rig);
        takeovers::other_flags(&mut rig);
        takeovers::other_users(&mut rig);
        takeovers::other_layouts(&mut rig);
        rig.take_over();
        rig.daemon.end_by("TERM");
        assert_eq!(link::device_number("nid0"), None, "the device is still there");
        takeovers::nobody_there();
        takeovers::under_a_flood();
    });
}

#[test]
fn takeovers_by_stand_ins() {
    in_own_network("endurance of bad take-overs", || {
        let mut rig = Rig::start("stand-ins");
        stand_ins::gone_at_each_step(&mut rig);
        stand_ins::nonsense(&mut rig);
        stand_ins::two_at_once(&mut rig);
        stand_ins::silent(&mut rig);
        rig.daemon.end_by("TERM");
    });
}

#[test]
fn takeovers_that_come_too_late() {
    in_own_network("endurance of late take-overs", || {
        let mut rig = Rig::start("late");
        stand_ins::late(&mut rig);
        rig.take_over();
        rig.daemon.end_by("TERM");
    });
}

#[test]
fn takeovers_in_which_one_is_killed() {
    in_own_network("endurance of take-overs in which one is killed", || {
        killed::takers();
        killed::before_it_sends();
        killed::after_it_has_sent();
        killed::stopped_while_it_waits();
        killed::stopped_taker();
    });
}

#[test]
fn upgrades_from_an_earlier_layout() {
    in_own_network("endurance of upgrades from an earlier layout", || {
        let mut rig = Rig::start("earlier-layout");
        for (layout, of_layout) in earlier_program::EARLIER {
            earlier_program::take_over(&mut rig, layout, of_layout);
            earlier_program::state_file(&mut rig, of_layout);
        }
        rig.daemon.end_by("TERM");
    });
}

#[test]
fn restarts_with_a_state_file() {
    in_own_network("endurance of restarts", || {
        let mut rig = Rig::start("restarts");
        restarts::by_each_signal(&mut rig);
        restarts::file_between(&mut rig);
        restarts::without_its_device(&mut rig);
        restarts::with_take_overs(&mut rig);
        restarts::killed(&mut rig);
        state_files::bad_files(&mut rig);
        state_files::older_than_a_take_over(&mut rig);
        state_files::of_another_boot(&mut rig);
        rig.daemon.end_by("TERM");
    });
}

#[test]
fn restarts_of_other_kinds() {
    in_own_network("endurance of restarts of other kinds", || {
        restarts::idle_meanwhile();
        restarts::without_root();
        restarts::without_a_folder();
        restarts::on_a_full_disk();
    });
}

#[test]
fn unknown_connections_and_late_openings() {
    in_own_network("endurance of unknown connections and late openings", || {
        defence::unknown_connections();
        defence::limited_resets();
        defence::late_openings();
        defence::openings_that_are_handed_on();
        defence::flood_of_openings();
        defence::noise_and_drops();
    });
}

#[test]
fn operators_of_all_kinds() {
    in_own_network("endurance of what operators say", || {
        let mut service = Service::start("operators");
        operators::weights(&mut service);
        operators::ended(&mut service);
        operators::down_and_up(&mut service);
        operators::watched(&mut service);
        operators::looks(&mut service);
        operators::wrong_words(&mut service);
        service.daemon.end_by("TERM");
    });
}

#[test]
fn listings_of_a_full_table() {
    in_own_network("endurance of listings", || {
        listings::packets_meanwhile();
        listings::slow_reader();
    });
}

#[test]
fn waits_of_all_kinds() {
    in_own_network("endurance of waits", || {
        waits::to_zero();
        waits::through_take_over_and_restart();
        waits::another_director();
        waits::gone();
        waits::in_vain();
    });
}

#[test]
fn real_ends() {
    in_own_network("endurance of real ends", ends::both_learn);
}
