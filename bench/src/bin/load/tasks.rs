//! Which tasks there are.

use std::ops::Range;

/// The tasks' numbers by the file that declares them, and whether every file has lines of all tasks
/// or of its own alone.
pub struct Tasks {
    pub files: usize,
    pub in_each: usize,
    pub are_shared: bool,
}

impl Tasks {
    /// As many tasks for each file as there may be, and at most 48.
    pub fn own(files: usize) -> Tasks {
        Tasks {
            files,
            in_each: (256 / files).min(48),
            are_shared: false,
        }
    }

    /// 32 tasks for all files.
    pub fn shared(files: usize) -> Tasks {
        Tasks {
            files,
            in_each: 32_usize.div_ceil(files),
            are_shared: true,
        }
    }

    pub fn all(&self) -> Range<usize> {
        0..self.files * self.in_each
    }

    /// Those that a file declares.
    pub fn declared_by(&self, file: usize) -> Vec<usize> {
        let is_of_file = |task: &usize| match self.are_shared {
            true => task % self.files == file,
            false => task / self.in_each == file,
        };
        self.all().filter(is_of_file).collect()
    }

    /// Those of which a file has lines.
    pub fn played_by(&self, file: usize) -> Vec<usize> {
        match self.are_shared {
            true => self.all().collect(),
            false => self.declared_by(file),
        }
    }
}
