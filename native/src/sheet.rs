//! Sheets in memory, of both forms.

/// The two forms of a sheet.
#[derive(Clone, Copy, Debug, PartialEq, Eq)]
pub enum Form {
    Windows,
    Timetable,
}

pub const FORMS: [Form; 2] = [Form::Windows, Form::Timetable];

impl Form {
    /// The form that the program `plan` takes a text to have.
    pub fn of(text: &[u8]) -> Form {
        if text.first() == Some(&b'X') {
            Form::Timetable
        } else {
            Form::Windows
        }
    }
}

/// Columns of equal length; order j stands at index j - 1.
#[derive(Clone, Debug, Default, PartialEq, Eq)]
pub struct Orders {
    pub release: Vec<u32>,
    pub due: Vec<u32>,
    pub weight: Vec<u32>,
}

impl Orders {
    pub fn len(&self) -> usize {
        self.release.len()
    }

    pub fn is_empty(&self) -> bool {
        self.release.is_empty()
    }

    pub fn push(&mut self, release: u32, due: u32, weight: u32) {
        self.release.push(release);
        self.due.push(due);
        self.weight.push(weight);
    }

    /// The weighted lateness of the order at index `j`.
    pub fn lateness(&self, j: usize, arrival: u32) -> i64 {
        i64::from(self.weight[j]) * (i64::from(arrival) - i64::from(self.due[j]))
    }
}

/// What the window form says of times: the windows, and the trains' running times.
#[derive(Clone, Debug, Default, PartialEq, Eq)]
pub struct Windows {
    pub gap: u32,
    pub from: Vec<u32>,
    pub to: Vec<u32>,
    pub running: Vec<u32>,
}

/// What the timetable form says of times: those of each train.
#[derive(Clone, Debug, Default, PartialEq, Eq)]
pub struct Timetable {
    pub departure: Vec<u32>,
    pub arrival: Vec<u32>,
}

/// What the two forms do not share.
#[derive(Clone, Debug, PartialEq, Eq)]
pub enum Paths {
    Windows(Windows),
    Timetable(Timetable),
}

/// Train i has its capacity at index i - 1.
#[derive(Clone, Debug, PartialEq, Eq)]
pub struct Sheet {
    pub capacity: Vec<u32>,
    pub paths: Paths,
    pub orders: Orders,
}

impl Sheet {
    pub fn form(&self) -> Form {
        match self.paths {
            Paths::Windows(_) => Form::Windows,
            Paths::Timetable(_) => Form::Timetable,
        }
    }

    /// How many orders and how many trains: document 01's n and q.
    pub fn size(&self) -> (usize, usize) {
        (self.orders.len(), self.capacity.len())
    }

    /// The places of trains 1 to i: document 01's K_i. A capacity may be any u32 here.
    pub fn places(&self, i: usize) -> usize {
        self.capacity[..i].iter().map(|&places| places as usize).sum()
    }

    /// How many places are left if each order has one; none if there are too few.
    pub fn spare_places(&self) -> Option<usize> {
        let (n, q) = self.size();
        self.places(q).checked_sub(n)
    }
}
