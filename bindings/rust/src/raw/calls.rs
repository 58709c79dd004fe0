//! The calls.

use super::{
    Control, FindReply, Record, Reply, ReportReply, RunReply, ScheduleReply, ServeReply,
    SheetReply, Verdict,
};

#[link(name = "zeppolecape", kind = "static")]
unsafe extern "C" {
    /// Opens an empty queue. Answers 0, or refuses: 10, 11, 12.
    pub fn zc_open(
        control: *mut Control,
        records: *mut Record,
        record_count: usize,
        tasks: u64,
        slots: u64,
        tag: u32,
        lefts: *mut u64,
        left_count: usize,
        rights: *mut u64,
        right_count: usize,
        labels: *mut u32,
        label_count: usize,
        marks: *mut u64,
        mark_count: usize,
    ) -> u32;

    /// Opens an empty queue with all slots in a pool. Answers 0, or refuses: 10, 11, 12.
    pub fn zc_open_pooled(
        control: *mut Control,
        records: *mut Record,
        record_count: usize,
        tasks: u64,
        slots: u64,
        tag: u32,
        lefts: *mut u64,
        left_count: usize,
        rights: *mut u64,
        right_count: usize,
        labels: *mut u32,
        label_count: usize,
        marks: *mut u64,
        mark_count: usize,
        next: *mut u64,
        next_count: usize,
    ) -> u32;

    /// Starts a push for an idle task.
    /// Refuses: 34 for control, 12, 13, 14, 41, 15, 34 for the record, 30, 32, 33.
    pub fn zc_push(
        control: *mut Control,
        records: *mut Record,
        record_count: usize,
        task: usize,
        side: u64,
        slot: u64,
        label: u32,
        lefts: *const u64,
        left_count: usize,
        rights: *const u64,
        right_count: usize,
        labels: *mut u32,
        label_count: usize,
        marks: *mut u64,
        mark_count: usize,
        next: *const u64,
        next_count: usize,
    ) -> Reply;

    /// Starts a push for an idle task, with a slot from the pool.
    /// Refuses: 34 for control, 12, 13, 14, 41, 34 for the record, 30, 33.
    pub fn zc_push_pooled(
        control: *mut Control,
        records: *mut Record,
        record_count: usize,
        task: usize,
        side: u64,
        label: u32,
        lefts: *const u64,
        left_count: usize,
        rights: *const u64,
        right_count: usize,
        labels: *const u32,
        label_count: usize,
        marks: *const u64,
        mark_count: usize,
        next: *const u64,
        next_count: usize,
    ) -> Reply;

    /// Starts a pop for an idle task.
    /// Refuses: 34 for control, 12, 13, 14, 34 for the record, 30, 33.
    pub fn zc_pop(
        control: *mut Control,
        records: *mut Record,
        record_count: usize,
        task: usize,
        side: u64,
        lefts: *const u64,
        left_count: usize,
        rights: *const u64,
        right_count: usize,
        labels: *const u32,
        label_count: usize,
        marks: *const u64,
        mark_count: usize,
        next: *const u64,
        next_count: usize,
    ) -> Reply;

    /// Moves a busy task by one step.
    /// Refuses: 34 for control, 12, 13, 34 for the record, 31, 34 for what the step touches.
    pub fn zc_step(
        control: *mut Control,
        records: *mut Record,
        record_count: usize,
        task: usize,
        lefts: *mut u64,
        left_count: usize,
        rights: *mut u64,
        right_count: usize,
        labels: *mut u32,
        label_count: usize,
        marks: *mut u64,
        mark_count: usize,
        next: *mut u64,
        next_count: usize,
    ) -> Reply;

    /// Steps a task until a step does not answer running, `most` times at the most.
    /// Refuses what its first step is refused by, or would be with `most` 0.
    pub fn zc_run(
        control: *mut Control,
        records: *mut Record,
        record_count: usize,
        task: usize,
        most: u64,
        lefts: *mut u64,
        left_count: usize,
        rights: *mut u64,
        right_count: usize,
        labels: *mut u32,
        label_count: usize,
        marks: *mut u64,
        mark_count: usize,
        next: *mut u64,
        next_count: usize,
    ) -> RunReply;

    /// Reports; of the records it looks at places and counts.
    /// Refuses: 34 for control, 12, 34 for the walk.
    pub fn zc_report(
        control: *const Control,
        records: *const Record,
        record_count: usize,
        lefts: *const u64,
        left_count: usize,
        rights: *const u64,
        right_count: usize,
        labels: *const u32,
        label_count: usize,
        marks: *const u64,
        mark_count: usize,
        next: *const u64,
        next_count: usize,
    ) -> ReportReply;

    /// Finds up to 32 labels in the queue; of equal ones the leftmost counts.
    /// Refuses: 34 for control, 45, 12 (rows and marks only), 34 for the walk.
    pub fn zc_find(
        control: *const Control,
        asked: *const u32,
        asked_count: usize,
        lefts: *const u64,
        left_count: usize,
        rights: *const u64,
        right_count: usize,
        labels: *const u32,
        label_count: usize,
        marks: *const u64,
        mark_count: usize,
    ) -> FindReply;

    /// Opens a queue, a named one if `pooled` is 0, and carries out a list of requests, five words
    /// each, with three words for each answer.
    /// Refuses: 10, 11, 12, and then carries out none.
    pub fn zc_serve(
        control: *mut Control,
        records: *mut Record,
        record_count: usize,
        pooled: u64,
        tasks: u64,
        slots: u64,
        tag: u32,
        requests: *const u64,
        request_words: usize,
        replies: *mut u64,
        reply_words: usize,
        lefts: *mut u64,
        left_count: usize,
        rights: *mut u64,
        right_count: usize,
        labels: *mut u32,
        label_count: usize,
        marks: *mut u64,
        mark_count: usize,
        next: *mut u64,
        next_count: usize,
    ) -> ServeReply;

    /// Joins two queues at rest in a third that is fresh. Answers 0, or refuses: 34 for the three
    /// controls, 12, 34 for the two walks, 47, 48, 33.
    pub fn zc_join(
        first: *const Control,
        first_records: *const Record,
        first_record_count: usize,
        second: *const Control,
        second_records: *const Record,
        second_record_count: usize,
        third: *mut Control,
        third_records: *mut Record,
        third_record_count: usize,
        first_lefts: *const u64,
        first_left_count: usize,
        first_rights: *const u64,
        first_right_count: usize,
        first_labels: *const u32,
        first_label_count: usize,
        second_lefts: *const u64,
        second_left_count: usize,
        second_rights: *const u64,
        second_right_count: usize,
        second_labels: *const u32,
        second_label_count: usize,
        lefts: *mut u64,
        left_count: usize,
        rights: *mut u64,
        right_count: usize,
        labels: *mut u32,
        label_count: usize,
        marks: *mut u64,
        mark_count: usize,
    ) -> u32;

    /// The same step on one lent record, which need not lie among the others.
    /// Refuses: 34 for control, 12 (not for records), 34 for the record, 31, 34 for what the step
    /// touches.
    pub fn zc_step_record(
        control: *mut Control,
        one: *mut Record,
        lefts: *mut u64,
        left_count: usize,
        rights: *mut u64,
        right_count: usize,
        labels: *mut u32,
        label_count: usize,
        marks: *mut u64,
        mark_count: usize,
        next: *mut u64,
        next_count: usize,
    ) -> Reply;

    /// Checks a history of finished calls, seven words each, against its claimed order of effects.
    /// Refuses: 40.
    pub fn zc_audit_words(
        words: *const u64,
        word_count: usize,
        order: *const u64,
        order_count: usize,
    ) -> Verdict;

    /// Whether the labels waiting keep an order sheet.
    /// Refuses: 34 for control, 46, 12 (rows and marks only), 34 for the walk.
    pub fn zc_sheet(
        control: *const Control,
        listed: *const u32,
        listed_count: usize,
        rules: *const u32,
        rule_count: usize,
        lefts: *const u64,
        left_count: usize,
        rights: *const u64,
        right_count: usize,
        labels: *const u32,
        label_count: usize,
        marks: *const u64,
        mark_count: usize,
    ) -> SheetReply;

    /// The same, with 32 lent words for the chained rules.
    /// Refuses: 34 for control, 46, 12 (words, rows and marks), 34 for the walk.
    pub fn zc_sheet_words(
        control: *const Control,
        listed: *const u32,
        listed_count: usize,
        rules: *const u32,
        rule_count: usize,
        words: *mut u32,
        word_count: usize,
        lefts: *const u64,
        left_count: usize,
        rights: *const u64,
        right_count: usize,
        labels: *const u32,
        label_count: usize,
        marks: *const u64,
        mark_count: usize,
    ) -> SheetReply;

    /// The first schedule after the one that `schedule` holds, stored over it.
    /// Refuses: 34 for control, 12 (schedule too: 49 words), 34 for the walk, 42.
    pub fn zc_next_schedule(
        control: *const Control,
        records: *const Record,
        record_count: usize,
        schedule: *mut u64,
        schedule_count: usize,
        lefts: *mut u64,
        left_count: usize,
        rights: *mut u64,
        right_count: usize,
        labels: *mut u32,
        label_count: usize,
        marks: *mut u64,
        mark_count: usize,
        next: *mut u64,
        next_count: usize,
    ) -> ScheduleReply;

    /// Saves a queue on one of eight shelves. Answers 0, or refuses: 34 for control, 43, 12.
    pub fn zc_save(
        control: *const Control,
        records: *const Record,
        record_count: usize,
        shelf_controls: *mut Control,
        shelf_control_count: usize,
        shelf_records: *mut Record,
        shelf_record_count: usize,
        shelf: u64,
        lefts: *const u64,
        left_count: usize,
        rights: *const u64,
        right_count: usize,
        labels: *const u32,
        label_count: usize,
        marks: *const u64,
        mark_count: usize,
        next: *const u64,
        next_count: usize,
        shelf_lefts: *mut u64,
        shelf_left_count: usize,
        shelf_rights: *mut u64,
        shelf_right_count: usize,
        shelf_labels: *mut u32,
        shelf_label_count: usize,
        shelf_marks: *mut u64,
        shelf_mark_count: usize,
        shelf_next: *mut u64,
        shelf_next_count: usize,
    ) -> u32;

    /// Puts the queue on a shelf back. Answers 0, or refuses: 43, 44, 34 for the shelf's control, 12.
    pub fn zc_return(
        control: *mut Control,
        records: *mut Record,
        record_count: usize,
        shelf_controls: *const Control,
        shelf_control_count: usize,
        shelf_records: *const Record,
        shelf_record_count: usize,
        shelf: u64,
        lefts: *mut u64,
        left_count: usize,
        rights: *mut u64,
        right_count: usize,
        labels: *mut u32,
        label_count: usize,
        marks: *mut u64,
        mark_count: usize,
        next: *mut u64,
        next_count: usize,
        shelf_lefts: *const u64,
        shelf_left_count: usize,
        shelf_rights: *const u64,
        shelf_right_count: usize,
        shelf_labels: *const u32,
        shelf_label_count: usize,
        shelf_marks: *const u64,
        shelf_mark_count: usize,
        shelf_next: *const u64,
        shelf_next_count: usize,
    ) -> u32;
}
