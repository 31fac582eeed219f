//! The table of the sound rules: the words of document 01, the test, and a damage that aims at it.
//!
//! A rule that always breaks together with another has no row of its own. That the class of a used
//! slot is 0 to 15 stands with its number of operations: there is no queue of class 16 in which the
//! slot could stand. That waiting ones have number 0 and confirmed ones at least 1 cannot be
//! broken: number 0 is how a site says waiting. That an id is not 0 cannot either: id 0 is how a
//! site says free. Bytes 6 and 7 of a record and byte 3 of an operation are in no site.

mod heads;
mod kept;
mod numbers;
mod queries;
mod queues;
mod records;
mod sums;

use crate::subject::Subject;
use model::random::Random;

/// A sound rule.
pub struct Rule {
    /// What it says.
    pub words: &'static str,
    /// Whether it holds, on any bytes.
    pub holds: fn(&Subject) -> bool,
    /// Damage that aims to break this rule and no other.
    pub breach: fn(&mut Random, &mut Subject),
}

/// Every sound rule, in document 01's order; a new rule is a new row.
pub static RULES: [Rule; 39] = [
    Rule {
        words: "a free slot is all zero",
        holds: records::free_slots_are_zero,
        breach: records::free_slot_not_zero,
    },
    Rule {
        words: "a valid record: class 0 to 15, 1 to 7 operations",
        holds: records::class_and_count_are_in_range,
        breach: records::count_too_large,
    },
    Rule {
        words: "a valid record: codes 1 to 4",
        holds: records::codes_are_known,
        breach: records::odd_code,
    },
    Rule {
        words: "a valid record: cells 0 to 63",
        holds: records::cells_are_in_range,
        breach: records::odd_cell,
    },
    Rule {
        words: "a valid record: second cell zero, or another for move",
        holds: records::second_cells_are_right,
        breach: records::odd_second,
    },
    Rule {
        words: "a valid record: operations past the number zero",
        holds: records::ops_past_the_number_are_zero,
        breach: records::op_past_the_number,
    },
    Rule {
        words: "no queue is longer than 136",
        holds: queues::queues_are_short,
        breach: queues::queue_too_long,
    },
    Rule {
        words: "every used slot stands in the queue of its class",
        holds: queues::used_slots_stand,
        breach: queues::slot_left_out,
    },
    Rule {
        words: "exactly once there",
        holds: queues::used_slots_stand_once,
        breach: queues::slot_twice,
    },
    Rule {
        words: "and in no other queue",
        holds: queues::used_slots_stand_nowhere_else,
        breach: queues::slot_in_other_queue,
    },
    Rule {
        words: "no free slot stands in a queue",
        holds: queues::free_slots_stand_nowhere,
        breach: queues::free_slot_in_queue,
    },
    Rule {
        words: "every entry belongs to an open query",
        holds: queries::entries_belong,
        breach: queries::entry_without_query,
    },
    Rule {
        words: "an open query has an entry in each class left to read",
        holds: queries::queries_have_entries,
        breach: queries::class_without_entry,
    },
    Rule {
        words: "one at most in each queue",
        holds: queries::entries_stand_once,
        breach: queries::entry_twice,
    },
    Rule {
        words: "entries stand by the count at their beginning",
        holds: queries::entries_are_in_order,
        breach: queries::entry_out_of_order,
    },
    Rule {
        words: "which is never above the present one",
        holds: queries::queries_began_before,
        breach: queries::begun_above_count,
    },
    Rule {
        words: "a free query is all zero",
        holds: queries::free_queries_are_zero,
        breach: queries::free_query_begun,
    },
    Rule {
        words: "working cells equal the committed where an entry is head",
        holds: queries::read_cells_are_equal,
        breach: queries::read_cells_wrong,
    },
    Rule {
        words: "queue places past the end are zero",
        holds: queues::places_past_the_end_are_zero,
        breach: queues::place_past_the_end,
    },
    Rule {
        words: "the map of used slots agrees",
        holds: queues::map_agrees,
        breach: queues::map_wrong,
    },
    Rule { words: "ids differ", holds: numbers::ids_differ, breach: numbers::equal_ids },
    Rule {
        words: "the confirmed stand before the waiting",
        holds: numbers::confirmed_stand_first,
        breach: numbers::waiting_first,
    },
    Rule {
        words: "with rising numbers",
        holds: numbers::numbers_rise,
        breach: numbers::falling_numbers,
    },
    Rule {
        words: "confirmed numbers differ over the whole site",
        holds: numbers::numbers_differ,
        breach: numbers::equal_numbers,
    },
    Rule {
        words: "and lie between 1 and the count of confirmations",
        holds: numbers::numbers_are_counted,
        breach: numbers::number_above_count,
    },
    Rule {
        words: "that count is the commits plus the confirmed queued",
        holds: numbers::counts_agree,
        breach: numbers::commits_wrong,
    },
    Rule {
        words: "no count of times put back is above that and the queries",
        holds: numbers::backs_are_counted,
        breach: numbers::backs_above_count,
    },
    Rule {
        words: "none has more done than it has operations",
        holds: heads::done_is_within_ops,
        breach: heads::done_past_ops,
    },
    Rule {
        words: "only a head has anything done",
        holds: heads::only_heads_have_done,
        breach: heads::done_behind_head,
    },
    Rule {
        words: "only a head is declined",
        holds: heads::only_heads_are_declined,
        breach: heads::declined_behind_head,
    },
    Rule {
        words: "a confirmed head is not executed",
        holds: heads::confirmed_heads_are_not_executed,
        breach: heads::executed_and_confirmed,
    },
    Rule {
        words: "the mark is the place of the first that declined, or 0",
        holds: heads::marks_are_right,
        breach: heads::mark_wrong,
    },
    Rule {
        words: "working cells follow the head's done operations",
        holds: heads::working_cells_follow,
        breach: heads::working_wrong,
    },
    Rule {
        words: "working cells equal the committed where no head is",
        holds: heads::idle_cells_are_equal,
        breach: heads::idle_wrong,
    },
    Rule {
        words: "kept ids are not 0",
        holds: kept::kept_ids_are_not_zero,
        breach: kept::kept_zero,
    },
    Rule { words: "kept ids differ", holds: kept::kept_ids_differ, breach: kept::kept_twice },
    Rule {
        words: "a queued id is kept exactly under its number",
        holds: kept::queued_ids_are_kept_as_numbered,
        breach: kept::kept_wrong,
    },
    Rule {
        words: "unused places of kept ids are zero",
        holds: kept::unused_places_are_zero,
        breach: kept::unused_place_filled,
    },
    Rule {
        words: "the sum of a class is that of its confirmed part",
        holds: sums::sums_are_right,
        breach: sums::sum_wrong,
    },
];

/// The rules that a subject with right cells breaks, by their places in the table.
pub fn broken(subject: &Subject) -> Vec<usize> {
    let rules = RULES.iter().enumerate();
    rules.filter(|(_, rule)| !(rule.holds)(subject)).map(|(place, _)| place).collect()
}
