//! Mistakes of serves alone.

use crate::many::{is_found_in, Where};
use crate::mistaken_many::Mistake::{self, *};

/// Of a serve that reads further than it is to, or not so far: what is left tells, or that a read failed.
const END: &str = "unread or errno";

/// Found in a serve of so few packets, with a complaint of this.
fn is_found(mistake: Mistake, most_packets: usize, complaint: &str) {
    is_found_in(Where::Serves, mistake, most_packets, complaint);
}

#[test]
fn an_answer_counted_for_the_other_way() {
    is_found(CountedForOtherWay, 1, "counters");
}

#[test]
fn refusals_counted_as_if_no_number_were_left_out() {
    is_found(CountedWithoutGaps, 1, "counters");
}

#[test]
fn refused_packets_written() {
    is_found(RefusedWritten, 2, "written or unsent: 1");
}

#[test]
fn accepted_packets_written_twice() {
    is_found(AcceptedWrittenTwice, 1, "written");
}

#[test]
fn unsent_packets_not_counted() {
    is_found(UnsentNotCounted, 1, "unsent: 0");
}

#[test]
fn an_empty_read_taken_for_a_packet() {
    is_found(EmptyReadTaken, 0, "taken: 1");
}

#[test]
fn the_way_told_wrong() {
    is_found(WayToldWrong, 1, "records [1]");
    // refused packets are no less told
    is_found(WayToldByAnswer, 1, "records [1]");
}

#[test]
fn the_length_told_wrong() {
    is_found(LengthOffByOne, 1, "records [0]");
    // without the bytes behind the packet's total length
    is_found(LengthOfTotal, 1, "records [0]");
}

#[test]
fn refused_packets_told_wrong() {
    is_found(RefusedToldAsAccepted, 1, "records [2]");
    is_found(ServerOfRefusedToldAsOther, 1, "records [3]");
}

#[test]
fn a_packet_not_told() {
    is_found(UnsentNotTold, 1, "records [0]");
    // where the call ends behind it
    is_found(LastNotTold, 1, "records [0]");
}

#[test]
fn a_refused_tick_told() {
    is_found(RefusedTickTold, 0, "records [0]");
}

#[test]
fn a_word_past_the_last_record_touched() {
    is_found(WordPastLastRecordTouched, 1, "records [5]");
}

#[test]
fn packets_not_behind_one_another() {
    is_found(EachAtTheBeginning, 2, "bytes");
    is_found(RefusedReadOver, 2, "bytes");
}

#[test]
fn a_refused_packet_changed_in_the_buffer() {
    is_found(RefusedChanged, 1, "bytes");
}

#[test]
fn an_accepted_packet_left_in_the_buffer_as_it_came() {
    is_found(AcceptedAsItCame, 1, "bytes");
}

#[test]
fn a_byte_past_the_last_packet_touched() {
    is_found(BytePastLastPacketTouched, 1, "bytes");
}

#[test]
fn a_datagram_cut_though_the_buffer_has_room() {
    is_found(CutAtLongest, 1, "records [0]");
}

#[test]
fn one_more_or_fewer_than_most() {
    is_found(OneMoreThanMost, 2, END);
    is_found(OneFewerThanMost, 2, END);
}

#[test]
fn one_more_or_fewer_than_records() {
    is_found(OneMoreThanRecords, 2, END);
    is_found(OneFewerThanRecords, 2, END);
}

#[test]
fn a_part_of_a_record_taken_for_one() {
    is_found(PartOfARecordTaken, 2, END);
}

#[test]
fn the_room_judged_wrong() {
    is_found(GoesOnWithLessRoom, 2, END);
    is_found(EndsWithJustRoom, 2, END);
    is_found(NoneIntoShortBuffer, 1, END);
}

#[test]
fn stop_judged_wrong() {
    is_found(StopIgnored, 2, END);
    is_found(StopAtAccepted, 2, END);
    is_found(StopAtAnyRefusal, 2, END);
    is_found(StopByLowByte, 2, END);
    is_found(StopForInboundAlone, 2, END);
}

#[test]
fn a_read_behind_the_end() {
    is_found(ReadsBehindTheEnd, 1, END);
}
