//! A script's lines, each with the line that the program answered to it.

/// What a call did.
#[derive(Clone, Debug, PartialEq, Eq)]
pub enum Deed {
    Opened {
        slots: u64,
        superframe: u64,
        gap: u64,
        time: u64,
    },
    Added {
        id: u64,
        first: u64,
        period: u64,
        deadline: u64,
    },
    Removed {
        id: u64,
    },
    Held {
        start: u64,
        ids: Vec<u64>,
    },
    /// Nothing was changed, but a refused O closes the planner.
    Refused {
        number: u64,
        closes: bool,
    },
}

/// One line of the script and its answer.
#[derive(Clone, Debug)]
pub struct Call {
    /// Counted from 1.
    pub line: usize,
    pub text: String,
    pub answer: String,
    pub deed: Deed,
}

/// All calls of a script, or the first line whose answer says nothing that the
/// program may say to it.
pub fn calls(script: &[u8], answers: &[u8]) -> Result<Vec<Call>, String> {
    let (lines, answers) = (lines(script), lines(answers));
    if lines.len() != answers.len() {
        let (asked, given) = (lines.len(), answers.len());
        return Err(format!(
            "the script has {asked} lines, and {given} were answered"
        ));
    }
    let pairs = lines.into_iter().zip(answers).enumerate();
    pairs
        .map(|(place, (text, answer))| {
            let line = place + 1;
            let deed = deed(line, &text, &answer)
                .ok_or_else(|| format!("line {line}: {text} cannot be answered by {answer}"))?;
            Ok(Call {
                line,
                text,
                answer,
                deed,
            })
        })
        .collect()
}

/// What is done by rounds that were asked for behind the script's last line.
pub fn rounds_after(script: &[u8], answers: &[u8]) -> Result<Vec<Deed>, String> {
    let asked = lines(script).len();
    let further = lines(answers).into_iter().enumerate().skip(asked);
    further
        .map(|(place, answer)| {
            deed(place + 1, "R", &answer)
                .ok_or_else(|| format!("line {}: R cannot be answered by {answer}", place + 1))
        })
        .collect()
}

/// The answers to the script's own lines.
pub fn answers_within<'a>(script: &[u8], answers: &'a [u8]) -> &'a [u8] {
    let ends = answers
        .iter()
        .enumerate()
        .filter(|(_, byte)| **byte == b'\n');
    let count = lines(script).len();
    let last = ends.take(count).last().map_or(0, |(place, _)| place + 1);
    &answers[..last]
}

/// Lines end in LF, and the last may lack it. A line that is no command may
/// hold any byte.
fn lines(bytes: &[u8]) -> Vec<String> {
    let mut lines: Vec<&[u8]> = bytes.split(|byte| *byte == b'\n').collect();
    if lines.last().is_some_and(|line| line.is_empty()) {
        lines.pop();
    }
    lines.into_iter().map(printable).collect()
}

/// Bytes that are no printed ASCII character are shown by their number.
fn printable(line: &[u8]) -> String {
    line.iter()
        .map(|byte| match byte {
            b' '..=b'~' => char::from(*byte).to_string(),
            _ => format!("\\x{byte:02x}"),
        })
        .collect()
}

/// What was done, by the answer and the line's own numbers.
fn deed(line: usize, text: &str, answer: &str) -> Option<Deed> {
    let (letter, said) = fields(answer)?;
    if letter == "E" {
        let refused = said == [20, line as u64];
        return refused.then_some(Deed::Refused {
            number: 20,
            closes: false,
        });
    }
    let (asked, values) = fields(text)?;
    if asked != letter {
        return None;
    }
    match (letter, values.as_slice(), said.as_slice()) {
        ("O", [slots, superframe, gap, time], [0]) => Some(Deed::Opened {
            slots: *slots,
            superframe: *superframe,
            gap: *gap,
            time: *time,
        }),
        ("A", [id, first, period, deadline], [of, 0]) if id == of => Some(Deed::Added {
            id: *id,
            first: *first,
            period: *period,
            deadline: *deadline,
        }),
        ("D", [id], [of, 0]) if id == of => Some(Deed::Removed { id: *id }),
        ("R", [], [0, start, n, ids @ ..]) => (*n == ids.len() as u64).then(|| Deed::Held {
            start: *start,
            ids: ids.to_vec(),
        }),
        _ => refusal(letter, &values, &said),
    }
}

/// A call refused with a number that is not 0.
fn refusal(letter: &str, values: &[u64], said: &[u64]) -> Option<Deed> {
    let number = match (letter, values, said) {
        ("O", [_, _, _, _], [number]) | ("R", [], [number]) => *number,
        ("A", [id, _, _, _], [of, number]) | ("D", [id], [of, number]) if id == of => *number,
        _ => return None,
    };
    (number != 0).then_some(Deed::Refused {
        number,
        closes: letter == "O",
    })
}

/// A letter and the numbers after it.
fn fields(line: &str) -> Option<(&str, Vec<u64>)> {
    let mut fields = line.split(',');
    let letter = fields.next()?;
    let numbers: Result<Vec<u64>, _> = fields.map(str::parse).collect();
    Some((letter, numbers.ok()?))
}

#[cfg(test)]
mod tests {
    use super::*;

    #[test]
    fn an_answer_to_another_call_is_an_error() {
        assert!(calls(b"D,4\n", b"D,4,14\n").is_ok());
        for answer in ["D,5,14", "A,4,14", "R,5", "D,4", "E,20,2", "R,0,3,1,4"] {
            assert!(calls(b"D,4\n", answer.as_bytes()).is_err(), "{answer}");
        }
        assert!(calls(b"R\n", b"R,0,3,2,4\n").is_err(), "an id too few");
        assert!(calls(b"R\nR", b"R,5\n").is_err(), "an answer too few");
    }
}
