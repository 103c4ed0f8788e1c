// The proved code's exported functions, and what the comparisons share.
use paper::{Answer, Outcome, Pick, Tally};

pub mod before_after;
pub mod benchmarks;
pub mod comparison;
pub mod comparisons;
pub mod counting;
pub mod entries;
pub mod loads;
pub mod machine;
pub mod meter;
pub mod question;
pub mod rows;
pub mod shop_book;
pub mod table;
pub mod timing;

extern "C" {
    fn rental_check_book(book: *const u8, length: usize) -> u64;

    fn rental_move(
        book: *const u8,
        length: usize,
        contents: *mut u16,
        locations: usize,
        agent: usize,
        picks: *const Pick,
        picks_length: usize,
        lent: usize,
    ) -> u64;

    fn rental_run_log(
        book: *const u8,
        book_length: usize,
        log: *const u8,
        log_length: usize,
        contents: *mut u16,
        contents_length: usize,
        readers: *mut u64,
        readers_length: usize,
        writers: *mut u64,
        writers_length: usize,
        lent: usize,
        tally: *mut u64,
    ) -> u64;

    fn rental_report_input(
        input: *const u8,
        length: usize,
        output: *mut u8,
        output_length: usize,
        tally: *mut u64,
    ) -> usize;
}

// The proved book check, as number and p; q is 0 for every refusal of a book.
pub fn check_book(book: &[u8]) -> Answer {
    // The exported function reads the bytes that it is given and nothing else.
    let answer = unsafe { rental_check_book(book.as_ptr(), book.len()) };
    Answer { number: (answer >> 32) as u32, p: answer as u32, q: 0 }
}

// An answer as the exported functions for a move and a log give it: number × 2^48 + p × 2^24 + q.
fn unpacked(answer: u64) -> Answer {
    Answer {
        number: (answer >> 48) as u32,
        p: (answer >> 24) as u32 & 0xff_ffff,
        q: answer as u32 & 0xff_ffff,
    }
}

// The proved single-move entry.
pub fn step(book: &[u8], contents: &mut [u16], agent: usize, picks: &[Pick], lent: usize) -> Answer {
    // The exported function reads the bytes and the picks and reads and writes the records that it is given, and nothing else.
    unpacked(unsafe {
        rental_move(
            book.as_ptr(),
            book.len(),
            contents.as_mut_ptr(),
            contents.len(),
            agent,
            picks.as_ptr(),
            picks.len(),
            lent,
        )
    })
}

// What each number of a tally is before a call; no run counts that far.
const UNWRITTEN: u64 = 0xa5a5_a5a5_a5a5_a5a5;

// A call that has to write a tally of two numbers, and only these.
fn tallied<T>(call: impl FnOnce(*mut u64) -> T) -> (T, Tally) {
    let mut numbers = [UNWRITTEN; 3];
    let result = call(numbers.as_mut_ptr());
    let [issued, returned, past] = numbers;
    assert_eq!(past, UNWRITTEN, "what stands past the tally was touched");
    (result, Tally { issued, returned })
}

// The proved run of a log.
pub fn run(
    book: &[u8],
    log: &[u8],
    contents: &mut [u16],
    readers: &mut [u64],
    writers: &mut [u64],
    lent: usize,
) -> Outcome {
    // As above, and it writes the two numbers of the tally.
    let (answer, tally) = tallied(|tally| unsafe {
        rental_run_log(
            book.as_ptr(),
            book.len(),
            log.as_ptr(),
            log.len(),
            contents.as_mut_ptr(),
            contents.len(),
            readers.as_mut_ptr(),
            readers.len(),
            writers.as_mut_ptr(),
            writers.len(),
            lent,
            tally,
        )
    });
    Outcome { answer: unpacked(answer), tally }
}

// The most bytes that `rental` prints.
pub const MOST_OUTPUT: usize = 51_225;

// What the proved code prints for an input, into an output that is lent; gives its length, and the tally of the run.
pub fn report_into(input: &[u8], output: &mut [u8]) -> (usize, Tally) {
    // As above.
    tallied(|tally| unsafe {
        rental_report_input(input.as_ptr(), input.len(), output.as_mut_ptr(), output.len(), tally)
    })
}

// What an output holds before a call.
static UNTOUCHED: [u8; MOST_OUTPUT] = [0xa5; MOST_OUTPUT];

// What the proved code prints for an input, and the tally; if bytes past it were touched, the whole output, so that the difference is seen.
pub fn report(input: &[u8]) -> (Vec<u8>, Tally) {
    let mut output = UNTOUCHED.to_vec();
    let (written, tally) = report_into(input, &mut output);
    if output[written..] == UNTOUCHED[written..] {
        output.truncate(written);
    }
    (output, tally)
}
