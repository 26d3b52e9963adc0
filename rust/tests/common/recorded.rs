//! The inputs of the printed program in tests/attempts, and what it has to print of them.
use std::fs;
use std::path::Path;

pub struct Run {
    pub name: String,
    pub input: Vec<u8>,
    pub expected: String,
}

/// All of them, by name.
pub fn runs() -> Vec<Run> {
    let folder = Path::new(env!("CARGO_MANIFEST_DIR")).join("../tests/attempts");
    let mut paths: Vec<_> = fs::read_dir(folder).unwrap().map(|entry| entry.unwrap().path()).collect();
    paths.retain(|path| path.extension().is_some_and(|extension| extension == "bin"));
    paths.sort();
    let run = |path: &std::path::PathBuf| Run {
        name: path.file_stem().unwrap().to_str().unwrap().to_owned(),
        input: fs::read(path).unwrap(),
        expected: fs::read_to_string(path.with_extension("txt")).unwrap(),
    };
    paths.iter().map(run).collect()
}

/// Cuts so many bytes off the front.
fn cut<'a>(rest: &mut &'a [u8], size: usize) -> Option<&'a [u8]> {
    let (first, behind) = rest.split_at_checked(size)?;
    *rest = behind;
    Some(first)
}

/// A count or a length, in two bytes.
fn number(rest: &mut &[u8]) -> Option<usize> {
    cut(rest, 2).map(|bytes| usize::from(u16::from_be_bytes(bytes.try_into().unwrap())))
}

impl Run {
    /// The attempts that are there whole, and whether the input is broken.
    pub fn attempts(&self) -> (Vec<&[u8]>, bool) {
        let mut rest = self.input.as_slice();
        let mut attempts = Vec::new();
        let Some(count) = number(&mut rest) else {
            return (attempts, true);
        };
        for _ in 0..count {
            let Some(attempt) = number(&mut rest).and_then(|size| cut(&mut rest, size)) else {
                return (attempts, true);
            };
            attempts.push(attempt);
        }
        (attempts, !rest.is_empty())
    }

    /// Whether the run was recorded from the source's folds.
    pub fn is_recorded(&self) -> bool {
        self.name.starts_with("recorded_")
    }
}
