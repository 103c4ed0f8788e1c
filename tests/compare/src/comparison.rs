// The loop of every comparison: questions by number are put to both implementations, the replies counted by class, and differences kept.
use crate::question::{Implementation, Question, Reply};
use inputs::{Counted, Counts, Cut, Idle, Picked, Released, Tallied};
use std::fmt;
use std::fs;
use std::io;
use std::ops::Range;
use std::path::{Path, PathBuf};

// Differences kept as files; more are only counted.
const MOST_KEPT: usize = 100;

// As much of a file is shown with a difference.
const MOST_SHOWN: usize = 1_500;

// What replies are counted by.
#[derive(Debug, Clone, Copy, PartialEq, Eq, PartialOrd, Ord)]
pub enum Class {
    // The number of the answer.
    Answer(u32),
    // The place of the answer.
    Place(u32, u32),
    // An accepted single move that leaves the contents as they were.
    ChangesNothing,
    // An accepted single move with picks, and with more than a log has room for.
    WithPicks,
    ManyPicks,
    Cut(Cut),
    Idle(Idle),
    Picked(Picked),
    Released(Released),
    Tallied(Tallied),
    Counted(Counted),
}

// A row of the table in `comparisons`.
pub struct Comparison {
    pub name: &'static str,
    // The exported function that its questions are put to.
    pub entry: &'static str,
    // How many inputs the tests compare.
    pub inputs: fn() -> u64,
    // The question of a seed and a number.
    pub question: fn(u64, u64) -> Question,
    // The classes of a question and its reply beside the answer's number.
    pub classes: fn(&Question, &Reply) -> Vec<Class>,
    // How often each class has to come up; no other may.
    pub floors: fn() -> Vec<(Class, u64)>,
}

// The folder for differences beside this package.
pub fn differences() -> PathBuf {
    Path::new(env!("CARGO_MANIFEST_DIR")).with_file_name("differences")
}

// What a comparison has found so far.
pub struct Compared {
    pub comparison: &'static Comparison,
    seed: u64,
    // The proved code, and then the independent implementation.
    implementations: [Implementation; 2],
    folder: PathBuf,
    pub counts: Counts<Class>,
    pub inputs: u64,
    pub differences: u64,
    // The first differences.
    pub kept: Vec<Difference>,
}

// A question that the two answer differently.
pub struct Difference {
    // Where its parts and both replies are.
    pub folder: PathBuf,
    // All that a reader wants to see first.
    text: String,
}

impl Comparison {
    // Nothing is compared yet; differences will be kept in this folder.
    pub fn begin(
        &'static self,
        seed: u64,
        implementations: [Implementation; 2],
        folder: PathBuf,
    ) -> Compared {
        Compared {
            comparison: self,
            seed,
            implementations,
            folder,
            counts: Counts::new(),
            inputs: 0,
            differences: 0,
            kept: Vec::new(),
        }
    }
}

impl Compared {
    // Compares the inputs of these numbers.
    pub fn compare(&mut self, numbers: Range<u64>) -> io::Result<()> {
        numbers.into_iter().try_for_each(|number| self.compare_one(number))
    }

    pub fn compare_one(&mut self, number: u64) -> io::Result<()> {
        let Comparison { entry, question, classes, .. } = self.comparison;
        let question = question(self.seed, number);
        assert_eq!(question.entry(), *entry, "{}: input {number}", self.comparison.name);
        let [proved, independent] = self.implementations.map(|implementation| implementation(&question));
        self.inputs += 1;
        self.counts.add(Class::Answer(independent.answer.number));
        self.counts.extend(classes(&question, &independent));
        if proved == independent {
            return Ok(());
        }
        self.differences += 1;
        if self.kept.len() < MOST_KEPT {
            self.keep(number, &question, &proved, &independent)?;
        }
        Ok(())
    }

    // Writes the parts of a question and both replies into a folder of their own.
    fn keep(
        &mut self,
        number: u64,
        question: &Question,
        proved: &Reply,
        independent: &Reply,
    ) -> io::Result<()> {
        let Comparison { name, .. } = self.comparison;
        let folder = self.folder.join(format!("{}-seed-{}-{number}", name.replace(' ', "-"), self.seed));
        fs::create_dir_all(&folder)?;
        let replies = [proved, independent].map(Reply::text);
        let mut files = question.files();
        files.extend(["proved", "independent"].into_iter().zip(replies.clone().map(String::into_bytes)));
        let mut text = format!("{name}, seed {}, input {number}: {}", self.seed, first_difference(&replies));
        text += &format!("kept in {}\n", folder.display());
        for (file, bytes) in files {
            text += &shown(file, &bytes);
            fs::write(folder.join(format!("{file}.txt")), bytes)?;
        }
        self.kept.push(Difference { folder, text });
        Ok(())
    }

    // What is wrong: the first difference, or a floor that was missed, or a class that should not come up; nothing if all is well.
    pub fn fault(&self) -> Option<String> {
        match self.kept.first() {
            Some(first) => Some(format!("{self}{first}")),
            None => {
                let fault = self.counts.fault((self.comparison.floors)())?;
                Some(format!("{}: {fault}", self.comparison.name))
            }
        }
    }
}

// The first line in which two replies differ.
fn first_difference([proved, independent]: &[String; 2]) -> String {
    let mut lines = proved.lines().zip(independent.lines()).enumerate();
    match lines.find(|(_, (ours, theirs))| ours != theirs) {
        Some((line, (ours, theirs))) => {
            format!("line {line} of the replies is '{ours}' proved, '{theirs}' independent\n")
        }
        None => "one reply is longer than the other\n".to_string(),
    }
}

// A file's name and the first of its bytes.
fn shown(file: &str, bytes: &[u8]) -> String {
    let first = String::from_utf8_lossy(&bytes[..bytes.len().min(MOST_SHOWN)]);
    let rest = if bytes.len() > MOST_SHOWN { "...\n" } else { "" };
    format!("--- {file}, {} bytes\n{first}{rest}", bytes.len())
}

impl fmt::Display for Difference {
    fn fmt(&self, out: &mut fmt::Formatter) -> fmt::Result {
        out.write_str(&self.text)
    }
}

// A line with the counts of the answers, and one with those of the other classes.
impl fmt::Display for Compared {
    fn fmt(&self, out: &mut fmt::Formatter) -> fmt::Result {
        let Compared { comparison, seed, inputs, differences, counts, .. } = self;
        write!(out, "{}, seed {seed}: {inputs} compared, {differences} differences: ", comparison.name)?;
        let (mut answers, mut others) = (String::new(), String::new());
        for &class in counts.keys() {
            match class {
                Class::Answer(number) => answers += &format!("{number}: {}  ", counts.of(class)),
                other => others += &format!("{other:?}: {}  ", counts.of(class)),
            }
        }
        writeln!(out, "{answers}")?;
        if others.is_empty() {
            return Ok(());
        }
        writeln!(out, "  {others}")
    }
}
