//! The table of how many cases there are of each sort, and what is wrong with the cases.

/// A sort of cases: its name, how many there are, and how many there have to be.
struct Row {
    /// The name.
    name: String,
    /// How many there are.
    count: usize,
    /// How many there have to be.
    least: usize,
}

/// How many cases there are of each sort, and what is wrong with some.
#[derive(Default)]
pub struct Table {
    /// The sorts.
    rows: Vec<Row>,
    /// What is wrong with single cases.
    wrong: Vec<String>,
}

impl Table {
    /// Adds a sort, of which there have to be at least so many cases.
    pub fn add(&mut self, name: &str, count: usize, least: usize) {
        let name = name.to_string();
        self.rows.push(Row { name, count, least });
    }

    /// The table of cases of another seed: they have to be right, but need not be of every sort.
    pub fn seeded<C, A>(cases: &[C], answer: impl Fn(&C) -> A, fault: impl Fn(&C, &A) -> Option<String>) -> Table {
        let mut table = Table::default();
        table.add("cases", cases.len(), 1);
        table.object(cases, &cases.iter().map(answer).collect::<Vec<A>>(), fault);
        table
    }

    /// Adds what is wrong with single cases and their answers, a line for each.
    pub fn object<C, A>(&mut self, cases: &[C], answers: &[A], fault: impl Fn(&C, &A) -> Option<String>) {
        for (i, (case, answer)) in cases.iter().zip(answers).enumerate() {
            let wrong = fault(case, answer).map(|text| format!("case {i} {text}"));
            self.wrong.extend(wrong);
        }
    }

    /// The table as text.
    pub fn text(&self) -> String {
        let line = |row: &Row| format!("{:6}  {}\n", row.count, row.name);
        self.rows.iter().map(line).collect()
    }

    /// What is wrong: single cases, and sorts that too few cases have.
    pub fn faults(&self) -> Vec<String> {
        let few = self.rows.iter().filter(|row| row.count < row.least);
        let few = few.map(|row| format!("{} of {} cases: {}", row.count, row.least, row.name));
        self.wrong.iter().cloned().chain(few).collect()
    }
}
