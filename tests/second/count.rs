//! The count of what passed and what failed, and the words for a failure.

use std::fmt::Display;

/// What is wrong, in words, or nothing.
pub type Fault = Option<String>;

/// How many failures are told in words.
const MOST_TOLD: usize = 500;

#[derive(Default)]
pub struct Count {
    passed: usize,
    failed: usize,
}

impl Count {
    pub fn judge(&mut self, name: impl Display, fault: Fault) {
        match fault {
            None => self.passed += 1,
            Some(fault) => {
                self.failed += 1;
                if self.failed <= MOST_TOLD {
                    println!("FAILED {name}: {fault}");
                }
                if self.failed == MOST_TOLD {
                    println!("further failures are counted and not told");
                }
            }
        }
    }

    pub fn judge_all(&mut self, checks: Vec<(impl Display, Fault)>) {
        for (name, fault) in checks {
            self.judge(name, fault);
        }
    }

    pub fn leave_out(&mut self, program: &str, cases: usize) {
        println!("FAILED {cases} cases: {program} does not run, so none of its cases was asked");
        self.failed += cases;
    }

    /// Prints the count as the last line. True where nothing failed.
    pub fn print(self) -> bool {
        println!("{} passed, {} failed", self.passed, self.failed);
        self.failed == 0
    }
}

/// The first line of some bytes, or what fits of it.
pub fn quoted(bytes: &[u8]) -> String {
    let line = bytes.split_inclusive(|&byte| byte == b'\n').next().unwrap_or(&[]);
    let cut = &line[..line.len().min(60)];
    let more = if cut.len() < bytes.len() { ".." } else { "" };
    format!("\"{}\"{more}", cut.escape_ascii())
}
