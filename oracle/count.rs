//! Counts the answers in a program's output.

const LETTERS: [char; 5] = ['O', 'A', 'D', 'R', 'E'];
const ANSWERS: usize = 21;

/// How often each answer 0 to 20 was given, for each command letter.
pub struct Counts {
    table: [[u64; ANSWERS]; LETTERS.len()],
    other: u64,
}

impl Counts {
    /// The counts over all lines of an output.
    pub fn of(output: &str) -> Counts {
        let mut counts = Counts {
            table: [[0; ANSWERS]; LETTERS.len()],
            other: 0,
        };
        for line in output.lines() {
            match answer(line) {
                Some((letter, number)) => counts.table[letter][number] += 1,
                None => counts.other += 1,
            }
        }
        counts
    }

    /// How often an answer was given, over all letters.
    pub fn total(&self, number: usize) -> u64 {
        self.table.iter().map(|column| column[number]).sum()
    }

    /// The table as text: a row for each answer, a column for each letter.
    pub fn text(&self) -> String {
        let mut text = String::from("answer");
        for letter in LETTERS {
            text.push_str(&format!(" {letter:>9}"));
        }
        text.push('\n');
        for number in 0..ANSWERS {
            text.push_str(&format!("{number:>6}"));
            for column in &self.table {
                text.push_str(&format!(" {:>9}", column[number]));
            }
            text.push('\n');
        }
        if self.other > 0 {
            text.push_str(&format!("lines of another form: {}\n", self.other));
        }
        text
    }
}

/// The letter's column and the answer of one printed line, whose fields are
/// the letter, after A and D the id, and the answer.
fn answer(line: &str) -> Option<(usize, usize)> {
    let fields: Vec<&str> = line.split(',').collect();
    let letter = fields[0].chars().next()?;
    let column = LETTERS.iter().position(|known| *known == letter)?;
    let place = if letter == 'A' || letter == 'D' { 2 } else { 1 };
    let number: usize = fields.get(place)?.parse().ok()?;
    (fields[0].len() == 1 && number < ANSWERS).then_some((column, number))
}

/// The answer alone of one printed line.
pub fn number(line: &str) -> usize {
    answer(line).expect("a line the program prints").1
}
