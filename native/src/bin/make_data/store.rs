//! The stored sheets, as they are written.

use native::print::print;
use native::sheet::Sheet;
use native::stored::sheets_in;
use native::write::{numbered_name, text_of};
use std::fs;
use std::path::{Path, PathBuf};

/// The number of the first given sheet.
const FIRST_GIVEN: u32 = 900;

pub struct Store {
    folder: PathBuf,
    number: u32,
    /// The names of the sheets.
    list: String,
    /// What the program `stored` prints: each name with its plan.
    stdout: String,
}

impl Store {
    pub fn new(folder: &str) -> Store {
        let folder = PathBuf::from(folder);
        fs::create_dir_all(folder.join("data")).expect("a folder to write to");
        Store { folder, number: 1, list: String::new(), stdout: String::new() }
    }

    /// Writes what is told of all sheets, and gives their number.
    pub fn finish(self) -> usize {
        self.write("data/list", self.list.as_bytes());
        self.write("stdout", self.stdout.as_bytes());
        self.list.lines().count()
    }

    fn write(&self, file: &str, content: &[u8]) {
        fs::write(self.folder.join(file), content).expect("a folder to write to");
    }

    /// The next group starts here, so that later additions renumber nothing outside it.
    pub fn group(&mut self, number: u32) {
        assert!(self.number <= number);
        self.number = number;
    }

    /// A sheet that must be printed thus.
    pub fn printed(&mut self, name: &str, text: &[u8], plan: &str) {
        let stem = format!("{:03}-{name}", self.number);
        assert_eq!(print(text), plan, "{stem}");
        self.write(&format!("data/{stem}.sheet"), text);
        self.write(&format!("data/{stem}.plan"), plan.as_bytes());
        self.number += 1;
        self.list += &format!("{stem}.sheet\n");
        self.stdout += &format!("{stem}.sheet\n{plan}");
    }

    /// A sheet that must be refused thus.
    pub fn refused(&mut self, name: &str, text: impl AsRef<[u8]>, refusal: &str) {
        self.printed(name, text.as_ref(), &format!("{refusal}\n"));
    }

    /// A sheet that must have a plan.
    pub fn planned(&mut self, name: &str, text: &str) {
        let plan = print(text.as_bytes());
        assert!(plan.starts_with("P,"), "{name}: {plan}");
        self.printed(name, text.as_bytes(), &plan);
    }

    pub fn planned_sheet(&mut self, name: &str, sheet: &Sheet) {
        self.planned(name, &text_of(sheet, &mut numbered_name));
    }

    /// The given sheets that are stored already, with their plans.
    pub fn given_before(&mut self) {
        self.group(FIRST_GIVEN);
        for stored in sheets_in(&self.folder.join("data")) {
            if let Some((_, name)) = stored.name.split_once("-given-") {
                self.printed(&format!("given-{name}"), &stored.text, &stored.plan);
            }
        }
    }

    /// Sheets from elsewhere, with the plans that stand beside them in document 01's form; the windows come from the independent planner.
    pub fn given(&mut self, folder: &Path) {
        self.group(FIRST_GIVEN);
        for given in sheets_in(folder) {
            let (_, name) = given.name.split_once('-').expect("a number before each name");
            let plan = print(&given.text);
            assert_eq!(without_windows(&plan), given.plan, "{name}");
            self.printed(&format!("given-{name}"), &given.text, &plan);
        }
    }
}

/// A printed plan in document 01's form, in which D lines have no window.
fn without_windows(plan: &str) -> String {
    let before = |line: &str| match line.rsplit_once(',') {
        Some((times, _)) if line.starts_with("D,") => format!("{times}\n"),
        _ => format!("{line}\n"),
    };
    plan.lines().map(before).collect()
}
