//! Drawings of floors, read as `tools/draw` reads them: its own reading, tools/draw/reading.c, which the build script compiles.

/// The bytes of a floor, the steps of a leg and the bytes of a step, at most.
const FLOOR: usize = 6400;
const STEPS: usize = 16;
const STEP: usize = 8;

/// A floor as it is drawn, and the leg over it.
#[derive(Debug)]
pub struct Drawing {
    pub costs: Vec<u8>,
    /// From the goal back, as a leg wants them.
    pub steps: Vec<u8>,
    /// The line of the drawing that says each step; 0 for the goal's.
    pub lines: Vec<usize>,
}

/// What is wrong with a drawing, and its line; 0 where it is the whole.
#[derive(Clone, PartialEq, Eq, Debug)]
pub struct Fault {
    pub line: usize,
    pub words: String,
}

/// What src/drawing.c fills in.
#[repr(C)]
struct Answer {
    costs: [u8; FLOOR],
    steps: [u8; STEPS * STEP],
    lines: [i32; STEPS],
    count: i32,
    line: i32,
    words: [u8; 256],
}

unsafe extern "C" {
    fn oracle_read_drawing(text: *const u8, length: usize, answer: *mut Answer, size: usize) -> bool;
    fn oracle_refusal_text(number: u8) -> *const std::ffi::c_char;
}

/// The floor and the leg of a drawing.
pub fn read(text: &[u8]) -> Result<Drawing, Fault> {
    let mut answer = Box::new(Answer {
        costs: [0; FLOOR],
        steps: [0; STEPS * STEP],
        lines: [0; STEPS],
        count: 0,
        line: 0,
        words: [0; 256],
    });
    // SAFETY: the text is a live slice, and the answer is lent alone, of the layout and size that drawing.c has.
    let is_read = unsafe { oracle_read_drawing(text.as_ptr(), text.len(), &mut *answer, size_of::<Answer>()) };
    if !is_read {
        let words = answer.words.iter().copied().take_while(|byte| *byte != 0).collect::<Vec<u8>>();
        return Err(Fault { line: answer.line as usize, words: String::from_utf8_lossy(&words).into_owned() });
    }
    let count = answer.count as usize;
    Ok(Drawing {
        costs: answer.costs.to_vec(),
        steps: answer.steps[..STEP * count].to_vec(),
        lines: answer.lines[..count].iter().map(|line| *line as usize).collect(),
    })
}

/// What the header says of a refusal's number.
pub fn refusal_text(number: u8) -> String {
    // SAFETY: it takes any number and answers a constant text.
    let text = unsafe { std::ffi::CStr::from_ptr(oracle_refusal_text(number)) };
    text.to_string_lossy().into_owned()
}
