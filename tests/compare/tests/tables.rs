// What the benchmarks print of their numbers, and what they read of callgrind's.
use compare::counting::instructions_in;
use compare::rows::Row;
use compare::table::{count, time};

// Two functions with a call between them, and a clearing of 5,000 bytes.
const DUMP: &str = "\
positions: line
events: Ir
summary: 10162

ob=bench
fl=rows.rs
fn=counted_calls
0 11
cob=libc.so.6
cfi=memset.S
cfn=__memset_avx2_unaligned_erms
calls=2 167
0 10032
0 8
cfn=counted
calls=1 0
0 111

fn=counted
450 2
fi=alloc.rs
13 12
14 97

fl=memset.S
fn=__memset_avx2_unaligned_erms
167 4
336 10028

totals: 10162
";

#[test]
fn instructions_but_for_clearing() {
    assert_eq!(instructions_in(DUMP), 11 + 8 + 2 + 12 + 97);
    assert_eq!(instructions_in(""), 0);
}

#[test]
fn rows_between_two_builds() {
    let row = Row { what: "log: a row".into(), units: 10.0, measured: [3.25e-9, 1.0, 2e-9, 0.5] };
    assert_eq!(Row::from_line(&format!("{}\n", row.line())).expect("a row"), row);
    assert!(Row::from_line("log: a row\t1\t2\n").is_err());
    assert!(Row::from_line("").is_err());
}

#[test]
fn differences_of_the_best() {
    let row = |measured| Row { what: "a row".into(), units: 2.0, measured };
    let best = row([9.0, 8.0, 3.0, 2.0]).best_of(&row([10.0, 6.0, 1.0, 4.0]));
    assert_eq!(best, row([9.0, 6.0, 1.0, 2.0]));
    assert_eq!((best.proved(), best.independent(), best.ratio()), (4.0, 2.0, 2.0));
    assert!(!best.is_faint());
    assert!(row([10.0, 9.0, 9.5, 1.0]).is_faint());
    assert!(!row([10.0, 9.0, 0.0, 0.0]).is_faint());
}

#[test]
fn numbers() {
    assert_eq!([1.5e-9, 12.34e-6, 0.5].map(time), ["1.50 ns", "12.3 µs", "500 ms"]);
    assert_eq!([23.44, 100.0, 1234.0, 1234567.2].map(count), ["23.4", "100", "1,234", "1,234,567"]);
    assert_eq!(count(-123456.0), "-123,456");
}
