//! A leg as a file, written from document 02, Job 1: the mark `LEG`, a 16-bit version 1 (low byte first), a byte for the
//! step count 1 to 16, then the steps of 8 bytes, and nothing after.

use std::ops::RangeInclusive;

use super::{Model, Slip};
use crate::subject::LegFile;

const MARK: &[u8] = b"LEG";
const VERSION: u16 = 1;
const COUNTS: RangeInclusive<usize> = 1..=16;
const STEP: usize = 8;

impl Model {
    fn version(&self, bytes: [u8; 2]) -> u16 {
        if self.slips(Slip::FileVersionSwapped) { u16::from_be_bytes(bytes) } else { u16::from_le_bytes(bytes) }
    }

    /// The file of a list of steps.
    fn file_of(&self, steps: &[u8]) -> Vec<u8> {
        let version = if self.slips(Slip::FileVersionSwapped) { VERSION.to_be_bytes() } else { VERSION.to_le_bytes() };
        let count = if self.slips(Slip::FileCountOfBytes) { steps.len() } else { steps.len() / STEP };
        [MARK, &version, &[count as u8], steps].concat()
    }

    /// A slip may judge the steps, which document 02 leaves to the leg.
    fn steps_taken(&self, steps: &[u8]) -> bool {
        !self.slips(Slip::FileStepsJudged) || steps.chunks(STEP).all(|step| step[0] < 64)
    }

    fn list_wrong(&self, steps: &[u8]) -> bool {
        let most = if self.slips(Slip::FileSeventeen) { 17 } else { *COUNTS.end() };
        steps.is_empty() || steps.len() > most * STEP || steps.len() % STEP != 0 || !self.steps_taken(steps)
    }

    /// The writer's number: 3 for the list, then 2 for a buffer that is not exactly as long as the file.
    fn write_number(&self, steps: &[u8], room: usize) -> u8 {
        let long = self.file_of(steps).len();
        let misfit = if self.slips(Slip::FileLongerBuffer) { room < long } else { room != long };
        match (self.list_wrong(steps), misfit) {
            (true, true) if self.slips(Slip::FileTwoBeforeThree) => 2,
            (true, _) => 3,
            (false, true) => 2,
            (false, false) => 0,
        }
    }

    pub(crate) fn write_file(&self, steps: &[u8], file: &mut [u8]) -> u8 {
        let number = self.write_number(steps, file.len());
        let written = self.file_of(steps);
        if number == 0 {
            file[..written.len()].copy_from_slice(&written);
        } else if self.slips(Slip::FileWrittenBeforeRefusal) {
            file.fill(0);
        }
        number
    }

    /// The steps of a file that has mark, version, count and length right.
    fn steps_of<'a>(&self, file: &'a [u8]) -> Option<&'a [u8]> {
        let marked = if self.slips(Slip::FileMarkShort) { file.get(3..) } else { file.strip_prefix(MARK) };
        let (version, rest) = marked?.split_first_chunk::<2>()?;
        let (count, steps) = rest.split_first()?;
        let count = usize::from(*count);
        let long = steps.len() == count * STEP;
        let long = long || (self.slips(Slip::FileLengthIgnored) && steps.len() > count * STEP);
        let long = long || (self.slips(Slip::FileCountIgnored) && steps.len() % STEP == 0 && !steps.is_empty());
        let counted = COUNTS.contains(&count) || (self.slips(Slip::FileCountZero) && count == 0);
        let counted = counted || (self.slips(Slip::FileSeventeen) && count == 17);
        let right = self.version(*version) == VERSION && counted && long;
        Some(steps).filter(|steps| right && self.steps_taken(steps))
    }

    pub(crate) fn read_file(&self, file: &[u8]) -> LegFile {
        let refused = LegFile { number: 14, ..LegFile::default() };
        match self.steps_of(file) {
            Some(steps) => LegFile { number: 0, start: file.len() - steps.len(), length: steps.len() },
            None if self.slips(Slip::FilePartOfRefusal) => LegFile { start: 6, ..refused },
            None => refused,
        }
    }
}
