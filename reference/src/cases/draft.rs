//! A plan file in parts that can be damaged one by one.

use crate::plan::Task;

#[derive(Clone)]
pub struct Row {
    pub budget: u32,
    pub period: u32,
    pub name_length: u8,
    pub name: Vec<u8>,
}

impl From<&Task> for Row {
    fn from(task: &Task) -> Row {
        Row {
            budget: task.budget,
            period: task.period,
            name_length: task.name.len() as u8,
            name: task.name.clone(),
        }
    }
}

impl Row {
    pub fn bytes(&self) -> Vec<u8> {
        let mut bytes = Vec::new();
        bytes.extend(self.budget.to_be_bytes());
        bytes.extend(self.period.to_be_bytes());
        bytes.push(self.name_length);
        bytes.extend(&self.name);
        bytes
    }
}

#[derive(Clone)]
pub struct Section {
    pub letter: u8,
    /// What the file says, true or not.
    pub length: usize,
    pub body: Vec<u8>,
}

impl Section {
    pub fn new(letter: u8, body: Vec<u8>) -> Section {
        Section {
            letter,
            length: body.len(),
            body,
        }
    }

    fn bytes(&self) -> Vec<u8> {
        let mut bytes = vec![self.letter];
        bytes.extend((self.length as u16).to_be_bytes());
        bytes.extend(&self.body);
        bytes
    }
}

#[derive(Clone)]
pub struct Draft {
    pub mark: [u8; 3],
    pub version: u16,
    pub m: u8,
    pub delta: u8,
    pub layout: u8,
    pub rows: Vec<Row>,
    /// Notes between the table and the calls.
    pub notes_before: Vec<Vec<u8>>,
    pub calls: Vec<Vec<u8>>,
    pub notes_after: Vec<Vec<u8>>,
}

impl Draft {
    pub fn new(m: u8, delta: u8, layout: u8, tasks: &[Task]) -> Draft {
        Draft {
            mark: *b"NPF",
            version: 1,
            m,
            delta,
            layout,
            rows: tasks.iter().map(Row::from).collect(),
            notes_before: Vec::new(),
            calls: Vec::new(),
            notes_after: Vec::new(),
        }
    }

    pub fn head(&self) -> Vec<u8> {
        let mut bytes = self.mark.to_vec();
        bytes.extend(self.version.to_be_bytes());
        bytes.extend([self.m, self.delta, self.layout]);
        bytes
    }

    /// The table comes first; there is a section of calls if there are calls.
    pub fn sections(&self) -> Vec<Section> {
        let note = |body: &Vec<u8>| Section::new(b'N', body.clone());
        let rows = self.rows.iter().flat_map(Row::bytes).collect();
        let mut sections = vec![Section::new(b'T', rows)];
        sections.extend(self.notes_before.iter().map(note));
        if !self.calls.is_empty() {
            sections.push(Section::new(b'C', self.calls.concat()));
        }
        sections.extend(self.notes_after.iter().map(note));
        sections
    }

    pub fn bytes(&self) -> Vec<u8> {
        self.with_sections(&self.sections())
    }

    pub fn with_sections(&self, sections: &[Section]) -> Vec<u8> {
        let mut bytes = self.head();
        for section in sections {
            bytes.extend(section.bytes());
        }
        bytes
    }
}

pub fn request(task: u8) -> Vec<u8> {
    vec![b'R', task]
}

pub fn done(task: u8) -> Vec<u8> {
    vec![b'D', task]
}

pub fn ticks(count: u16) -> Vec<u8> {
    let [high, low] = count.to_be_bytes();
    vec![b'K', high, low]
}

/// Adds a note that makes the file this long, if one can.
pub fn pad(file: &mut Vec<u8>, length: usize, filler: u8) {
    let Some(body) = length.checked_sub(file.len() + 3) else {
        return;
    };
    file.extend(Section::new(b'N', vec![filler; body]).bytes());
}
