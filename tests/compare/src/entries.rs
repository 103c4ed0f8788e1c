// Which rows of the benchmarks and which comparison call each public entry.
pub struct Calls {
    // An exported function, then the entries behind it, each called by the one before.
    pub entries: &'static [&'static str],
    // How the names of the rows begin.
    pub rows: &'static [&'static str],
    // A row of the table in `comparisons`.
    pub comparison: &'static str,
}

pub const CALLS: [Calls; 4] = [
    Calls {
        entries: &["c_api::rental_check_book", "book_check::check_book"],
        rows: &["book check:"],
        comparison: "books",
    },
    Calls {
        entries: &["c_api::rental_move", "engine_step::step_own_list", "engine_step::step"],
        rows: &["single move:"],
        comparison: "single moves",
    },
    Calls {
        entries: &["c_api::rental_run_log", "order_entry::run_own_list", "order_entry::run"],
        rows: &["log:", "order:"],
        comparison: "logs",
    },
    Calls {
        entries: &["c_api::rental_report_input", "report_print::report"],
        rows: &["rental:"],
        comparison: "whole inputs",
    },
];

// One line for each exported function.
pub fn called() -> String {
    let line = |Calls { entries, rows, comparison }: &Calls| {
        format!("  {:<14} and {comparison:<13} call {}\n", rows.join(" "), entries.join(", "))
    };
    CALLS.iter().map(line).collect()
}
