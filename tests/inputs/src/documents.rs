// The inputs that the project's documents show, with the first line that they say `rental` prints.
use crate::lines::{numbers_in, padded};

// An input of `rental` as a document writes it, its bytes, and the numbers of the first printed line.
pub struct Shown {
    pub text: String,
    pub input: Vec<u8>,
    pub answer: Vec<u32>,
}

// The lines `input => answer` of a document's `case` blocks; BOOK stands for the line of its first plain block.
pub fn shown_in(document: &str) -> Vec<Shown> {
    let mut shown = Vec::new();
    let mut book = String::new();
    let mut block = "";
    for line in document.lines() {
        if let Some(kind) = line.strip_prefix("```") {
            block = match (block, kind) {
                ("", "case") => "case",
                ("", "") => "plain",
                _ => "",
            };
        } else if block == "plain" && book.is_empty() {
            book = line.to_string();
        } else if block == "case" {
            shown.push(shown_by(line, &book));
        }
    }
    shown
}

fn shown_by(line: &str, book: &str) -> Shown {
    let (input, answer) = line.split_once("=>").expect("a case has =>");
    let text = input.trim().replace("BOOK", book);
    Shown { input: padded(&text), answer: numbers_in(answer), text }
}
