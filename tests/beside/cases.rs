//! Hand-made cases: short scripts with the answers that the rules give, worked out by hand.
//! Each runs on the audited store. In scripts and answers, `/` parts lines and a space parts fields.

use crate::audit::Audit;
use crate::graph::Graph;
use crate::lines::run_script;
use crate::{AGENDA_PLACES, HOLDER_PLACES};

fn script(text: &str) -> Vec<u8> {
    text.replace(" / ", "\n").replace(' ', "\t").into_bytes()
}

fn on_store(input: &[u8]) -> String {
    let mut audit = Audit::new(HOLDER_PLACES, AGENDA_PLACES);
    let output = run_script(input, |call| audit.perform(call));
    String::from_utf8_lossy(&output).replace('\t', " ").trim_end_matches('\n').replace('\n', " / ")
}

fn on_graph(input: &[u8]) -> String {
    let mut graph = Graph::new(HOLDER_PLACES, AGENDA_PLACES);
    let output = run_script(input, |call| graph.perform(call));
    String::from_utf8_lossy(&output).replace('\t', " ").trim_end_matches('\n').replace('\n', " / ")
}

fn answers(text: &str, expected: &str) {
    assert_eq!(on_store(&script(text)), expected);
}

/// The last so many answers.
fn last_answers(text: &str, count: usize) -> String {
    let all = on_store(&script(text));
    let lines: Vec<&str> = all.split(" / ").collect();
    lines[lines.len() - count..].join(" / ")
}

const LINKED: &str =
    "M 0 1 1 / W 0 0 77 / M 1 0 2 / S 0 0 1 / M 1 0 0 / K 1 / B / G 1000 / T / L 1 0 0 / R 1 2 / R 0 0";

#[test]
fn linked_records_outlive_a_collection() {
    answers(
        LINKED,
        "M ok / W ok / M ok / S ok / M ok / K ok / B ok / G ok 163 163 0 / T ok 2 0 63 0 / L ok / R no 13 / R ok 77",
    );
}

#[test]
fn the_graph_knows_no_collections() {
    let expected = "M ok / W ok / M ok / S ok / M ok / K ok / - no 3 / - no 3 / - no 3 / L ok / R no 13 / R ok 77";
    assert_eq!(on_graph(&script(LINKED)), expected);
}

#[test]
fn thirty_references_and_words_are_the_most() {
    answers(
        "M 0 30 0 / H 0 / M 0 30 1 / M 0 4294967295 1 / M 0 0 30 / H 0 / M 0 0 31 / M 32 99 0",
        "M ok / H ok 30 0 / M no 2 / M no 2 / M ok / H ok 0 30 / M no 2 / M no 1",
    );
}

/// Records of 17 and 18 words share a page, and those of 16 and 19 do not.
#[test]
fn seventeen_words_take_class_eighteen() {
    answers(
        "M 0 0 15 / T / M 1 0 16 / T / M 2 0 14 / T / M 3 0 17 / T",
        "M ok / T ok 1 0 63 0 / M ok / T ok 2 0 63 0 / M ok / T ok 3 0 62 0 / M ok / T ok 4 0 61 0",
    );
}

/// Records of 2, 3 and 4 words share a page of 64 blocks; one of 5 does not.
#[test]
fn two_words_take_class_four() {
    let mixed = "M 0 0 0 / M 0 1 0 / M 0 1 1 / ".repeat(21);
    assert_eq!(last_answers(&format!("{mixed}M 0 0 0 / T"), 1), "T ok 64 0 63 0");
    assert_eq!(last_answers(&format!("{mixed}M 0 0 0 / M 0 0 0 / T"), 1), "T ok 65 0 62 0");
    assert_eq!(last_answers(&format!("{mixed}M 0 1 2 / T"), 1), "T ok 64 0 62 0");
}

#[test]
fn the_store_has_room_for_512_records_of_32_words() {
    let full = "M 0 1 29 / ".repeat(512);
    assert_eq!(last_answers(&format!("{full}T"), 2), "M ok / T ok 512 0 0 0");
    assert_eq!(
        last_answers(&format!("{full}M 0 1 29 / M 0 0 0 / M 0 30 1 / T"), 4),
        "M no 14 / M no 14 / M no 2 / T ok 512 0 0 0"
    );
}

#[test]
fn events_of_one_time_come_in_order_of_scheduling() {
    answers(
        "M 0 0 1 / M 1 0 2 / E 5 1 / E 5 0 / N 2 / H 2 / N 2 / H 2 / N 2",
        "M ok / M ok / E ok / E ok / N ok 5 / H ok 0 2 / N ok 5 / H ok 0 1 / N no 18",
    );
}

/// 46 full pages of class 30, then two pages of class 32 with so many records kept in each.
fn two_thin_pages(first: usize, second: usize) -> String {
    let mut text = "M 1 1 27 / S 1 0 0 / C 0 1 / ".repeat(46 * 8);
    for kept in [first, second] {
        text += &"M 1 1 29 / S 1 0 2 / C 2 1 / ".repeat(kept);
        text += &"M 1 1 29 / ".repeat(8 - kept);
    }
    text + "K 1 / B / G 4294967295 / T"
}

/// Roots, 368 + 8 blocks, the turn, the pages, 19 classes of one unit each, and 5 for class 32.
#[test]
fn pages_of_two_and_six_are_joined_in_five_units() {
    let units = 96 + 376 + 1 + 64 + 19 + 5;
    assert_eq!(last_answers(&two_thin_pages(2, 6), 2), format!("G ok {units} {units} 0 / T ok 376 2 16 1"));
}

#[test]
fn pages_of_two_and_seven_are_left_in_one_unit() {
    let units = 96 + 377 + 1 + 64 + 19 + 1;
    assert_eq!(last_answers(&two_thin_pages(2, 7), 2), format!("G ok {units} {units} 0 / T ok 377 0 16 0"));
}

#[test]
fn a_step_of_no_units_does_none() {
    answers(
        "G 0 / B / G 0 / G 7 / G 0 / B / G 160 / G 0",
        "G no 20 / B ok / G ok 0 0 1 / G ok 7 7 1 / G ok 0 7 1 / B no 19 / G ok 154 161 0 / G no 20",
    );
}

/// The record of place 5 goes to place 0, which has been taken already, and leaves place 5, which has not.
#[test]
fn an_overwritten_place_is_greyed_while_roots_are_taken() {
    answers(
        "M 5 0 1 / W 5 0 9 / B / G 3 / C 0 5 / K 5 / G 1000 / R 0 0 / T",
        "M ok / W ok / B ok / G ok 3 3 1 / C ok / K ok / G ok 159 162 0 / R ok 9 / T ok 1 0 63 0",
    );
}

/// The event's record leaves the agenda for a place that has been taken already.
#[test]
fn a_taken_event_is_greyed_while_roots_are_taken() {
    answers(
        "M 0 0 1 / W 0 0 9 / E 4 0 / K 0 / B / G 3 / N 0 / G 1000 / R 0 0",
        "M ok / W ok / E ok / K ok / B ok / G ok 3 3 1 / N ok 4 / G ok 159 162 0 / R ok 9",
    );
}

/// Sweeping has done page 0 alone when the new record is put into page 1, the lowest of its class.
#[test]
fn a_new_record_in_a_page_to_be_swept_is_kept() {
    answers(
        "M 0 0 0 / M 1 0 3 / B / G 100 / M 2 0 3 / W 2 0 9 / M 3 0 30 / G 1000 / R 2 0 / H 3 / T",
        "M ok / M ok / B ok / G ok 100 100 1 / M ok / W ok / M ok / G ok 63 163 0 / R ok 9 / H ok 0 30 / T ok 4 0 61 0",
    );
}

/// After moving, a place still holds the number of a husk; it is the same record, and it can be read.
#[test]
fn a_moved_record_is_one_record() {
    let text = two_thin_pages(2, 6).replace(
        "K 1 / B",
        "C 3 2 / L 3 3 0 / L 3 3 0 / L 3 3 0 / L 3 3 0 / L 3 3 0 / L 3 3 0 / W 3 28 9 / L 4 3 0 / K 1 / B",
    );
    let asked = format!("{text} / L 5 3 0 / Q 4 5 / R 3 28 / B / G 4294967295 / T / Q 4 5 / R 3 28");
    let units = 96 + 376 + 1 + 64 + 20;
    let expected = format!(
        "T ok 376 2 16 1 / L ok / Q ok 1 / R ok 9 / B ok / G ok {units} {units} 0 / T ok 376 0 17 0 / Q ok 1 / R ok 9"
    );
    assert_eq!(last_answers(&asked, 9), expected);
}

#[test]
fn the_agenda_takes_64_events() {
    let full = format!("M 0 0 0 / {}E 3 0 / E 2 0 / E 2 1", "E 3 0 / ".repeat(63));
    assert_eq!(last_answers(&full, 3), "E ok / E no 15 / E no 11");
    assert_eq!(last_answers(&format!("{full} / N 1 / E 2 0 / E 3 0 / E 3 0"), 4), "N ok 3 / E no 16 / E ok / E no 15");
}

#[test]
fn lines_end_at_a_line_feed_or_at_the_end() {
    let no_call = "- no 3";
    assert_eq!(on_store(b""), "");
    assert_eq!(on_store(b"\n"), no_call);
    assert_eq!(on_store(b"K\t0"), "K ok");
    assert_eq!(on_store(b"K\t0\n"), "K ok");
    assert_eq!(on_store(b"K\t0\n\n"), "K ok / - no 3");
    assert_eq!(on_store(b"\n\nK\t0"), "- no 3 / - no 3 / K ok");
    assert_eq!(on_store(b"K\t0\r\nK\t0\n"), "- no 3 / K ok");
}

#[test]
fn numbers_are_plain_decimals() {
    for good in ["0", "1", "31"] {
        assert_eq!(on_store(format!("K\t{good}").as_bytes()), "K ok");
    }
    for outside in ["32", "100", "4294967295"] {
        assert_eq!(on_store(format!("K\t{outside}").as_bytes()), "K no 1");
    }
    for bad in ["", "00", "01", "+1", "-1", " 1", "1 ", "4294967296", "0x1", "1\t", "\t1", "1\r", "1\t2", "٣"] {
        assert_eq!(on_store(format!("K\t{bad}").as_bytes()), "- no 3", "{bad:?}");
    }
    for bad in ["K", "B\t", "B\t0", "T\t0", "k\t0", "KK\t0", " K\t0", "\tK\t0", "A\t0", "D", "K 0"] {
        assert_eq!(on_store(bad.as_bytes()), "- no 3", "{bad:?}");
    }
}

#[test]
fn remarks_have_at_most_eighty_bytes() {
    let remark = |length: usize| [b"#".to_vec(), vec![b'x'; length - 1]].concat();
    assert_eq!(on_store(&remark(1)), "#");
    assert_eq!(on_store(&remark(80)).len(), 80);
    assert_eq!(on_store(&remark(81)), "- no 3");
    assert_eq!(on_store(&remark(20000)), "- no 3");
}
