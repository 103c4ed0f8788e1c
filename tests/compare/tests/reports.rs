// For an output of fewer bytes than an answer may need nothing is run and the output is left as it is, however short the answer.
use compare::{report, report_into, MOST_OUTPUT};
use inputs::specification;
use paper::Tally;

#[test]
fn short_outputs_are_left() {
    let input = specification::book_and(specification::LOG);
    assert_eq!(report(&input).1, Tally { issued: 1, returned: 0 });
    for length in [0, 1, 25, MOST_OUTPUT - 1] {
        let mut output = vec![0xa5; length];
        assert_eq!(report_into(&input, &mut output), (0, Tally::default()), "{length} bytes");
        assert!(output.iter().all(|&byte| byte == 0xa5), "{length} bytes: some were touched");
    }
}
