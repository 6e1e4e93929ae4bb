//! Named exceptions: answers that a request changed on purpose. One a line,
//!
//! ```text
//! NAME OP JUDGE-STATUS PROGRAM-STATUS
//! ```
//!
//! Where the judge's line has that op and status and the program's line has
//! the other status, the difference counts under the name, and the rest of
//! that trace, whose states may have parted, is not compared.

#[derive(Clone, Debug)]
pub struct Exception {
    pub name: String,
    op: String,
    judge: String,
    program: String,
    pub met: u64,
}

#[derive(Clone, Debug, Default)]
pub struct Exceptions(pub Vec<Exception>);

impl Exceptions {
    pub fn parse(text: &str) -> Result<Self, String> {
        let mut list = Vec::new();
        for line in text.lines() {
            let line = line.split('#').next().unwrap_or("").trim();
            if line.is_empty() {
                continue;
            }
            let words: Vec<String> = line.split_whitespace().map(str::to_string).collect();
            let [name, op, judge, program] = <[String; 4]>::try_from(words)
                .map_err(|_| format!("not NAME OP JUDGE-STATUS PROGRAM-STATUS: {line}"))?;
            list.push(Exception { name, op, judge, program, met: 0 });
        }
        Ok(Self(list))
    }

    /// Which exception, if any, these two lines are.
    pub fn of(&self, judge: &str, program: &str) -> Option<usize> {
        let (op, judged) = op_and_status(judge)?;
        let (same_op, answered) = op_and_status(program)?;
        self.0
            .iter()
            .position(|e| e.op == op && op == same_op && e.judge == judged && e.program == answered)
    }
}

fn op_and_status(line: &str) -> Option<(&str, &str)> {
    let mut words = line.split(' ');
    Some((words.next()?, words.next()?))
}
