//! The product's library by its calls for C. It is loaded from a shared object, which
//! `tools/library` makes of the product's archive, so that the libraries of two checkouts can stand
//! beside each other in one program. Lists, cells and rooms go as pointer and length.

use crate::checker::Verdict;
use crate::desk::Outcome;
use crate::desks::{Desk, CELLS};
use crate::marks::{Axis, Flat, Mark};
use std::ffi::{c_char, c_int, c_void, CStr, CString};
use std::path::Path;

/// The product's outcome as C lays it out.
#[repr(C)]
#[derive(Default)]
struct COutcome {
    number: u8,
    pieces: usize,
    bytes: usize,
}

/// The product's carried mark as C lays it out.
#[repr(C)]
#[derive(Default)]
struct CCarried {
    number: u8,
    lands: u8,
    pieces: usize,
    bytes: usize,
    x_step: i64,
    x_rest: f64,
    y_step: i64,
    y_rest: f64,
}

/// The product's verdict on a list as C lays it out.
#[repr(C)]
struct CVerdict {
    number: u8,
    drawing: u8,
    place: usize,
}

/// A struct of more than two words that comes back is written where the first argument points: that
/// is what a C function that returns one does on x86-64, which the product is built for.
type Answer =
    unsafe extern "C" fn(*mut COutcome, *const i32, usize, *const i32, usize, *mut u8, usize);
type Judge = unsafe extern "C" fn(*const i32, usize) -> u8;
type Sight = unsafe extern "C" fn(*const i32, usize, *mut u8, usize) -> bool;
type Cut =
    unsafe extern "C" fn(*mut COutcome, usize, *const u8, usize, *const u8, usize, *mut u8, usize);
#[rustfmt::skip]
type Carry = unsafe extern "C" fn(
    *mut CCarried, *const i32, usize, *const i32, usize, i32, i32, *mut u8, usize,
);
/// A struct of two words comes back in two registers, as C has it.
type Check =
    unsafe extern "C" fn(*const i32, usize, *const i32, usize, *const u8, usize) -> CVerdict;

pub struct Library {
    answer: Answer,
    sight: Sight,
    cut: Cut,
    /// Earlier checkouts do not have these.
    judge: Option<Judge>,
    carry: Option<Carry>,
    check: Option<Check>,
}

#[link(name = "dl")]
extern "C" {
    fn dlopen(path: *const c_char, mode: c_int) -> *mut c_void;
    fn dlsym(library: *mut c_void, name: *const c_char) -> *mut c_void;
    fn dlerror() -> *const c_char;
}

/// All names are looked up when the library is loaded.
const NOW: c_int = 2;

impl Library {
    /// Loads a library that has every call.
    pub fn load(path: &Path) -> Result<Library, String> {
        let library = Library::load_other(path)?;
        let has = [
            ("iravikkon_judge", library.judges()),
            ("iravikkon_carry", library.carries()),
            ("iravikkon_check", library.checks()),
        ];
        match has.iter().find(|(_, there)| !there) {
            Some((missing, _)) => Err(format!("{}: no {missing}", path.display())),
            None => Ok(library),
        }
    }

    /// Loads the library of another checkout, which may lack what came later. It stays loaded.
    pub fn load_other(path: &Path) -> Result<Library, String> {
        let name = CString::new(path.as_os_str().as_encoded_bytes()).map_err(|e| e.to_string())?;
        // The name is a C string; what runs when the object is loaded is the C library's own.
        let library = unsafe { dlopen(name.as_ptr(), NOW) };
        if library.is_null() {
            // After a failure the text is there, and nobody else loads anything.
            return Err(unsafe { CStr::from_ptr(dlerror()) }.to_string_lossy().into_owned());
        }
        let find = |name: &CStr| {
            // The library is loaded, and the name is a C string.
            let found = unsafe { dlsym(library, name.as_ptr()) };
            let missing = || format!("{}: no {}", path.display(), name.to_string_lossy());
            (!found.is_null()).then_some(found).ok_or_else(missing)
        };
        // The product exports its calls in these forms (crates/desk_c, marks_c and checker_c, each
        // in src/lib.rt).
        unsafe {
            Ok(Library {
                answer: std::mem::transmute::<*mut c_void, Answer>(find(c"iravikkon_answer")?),
                sight: std::mem::transmute::<*mut c_void, Sight>(find(c"iravikkon_sight")?),
                cut: std::mem::transmute::<*mut c_void, Cut>(find(c"iravikkon_cut")?),
                judge: find(c"iravikkon_judge").ok().map(|f| std::mem::transmute::<_, Judge>(f)),
                carry: find(c"iravikkon_carry").ok().map(|f| std::mem::transmute::<_, Carry>(f)),
                check: find(c"iravikkon_check").ok().map(|f| std::mem::transmute::<_, Check>(f)),
            })
        }
    }

    pub fn judges(&self) -> bool {
        self.judge.is_some()
    }

    pub fn carries(&self) -> bool {
        self.carry.is_some()
    }

    pub fn checks(&self) -> bool {
        self.check.is_some()
    }

    /// Whether its sight judges: it refuses this drawing, which crosses itself. That of earlier
    /// checkouts served any drawing within the limits.
    pub fn sight_judges(&self) -> bool {
        let crossed = [0, 0, 4, 4, 4, 0, 0, 4];
        !self.sight(&crossed, &mut [0; CELLS])
    }
}

/// What the call has put where it was told to.
fn outcome(call: impl FnOnce(*mut COutcome)) -> Outcome {
    let mut written = COutcome::default();
    call(&mut written);
    Outcome { number: written.number, pieces: written.pieces, bytes: written.bytes }
}

/// The same for a carried mark.
fn carried(call: impl FnOnce(*mut CCarried)) -> Flat {
    let mut written = CCarried::default();
    call(&mut written);
    let CCarried { number, lands, pieces, bytes, x_step, x_rest, y_step, y_rest } = written;
    let axes = [Axis { step: x_step, rest: x_rest }, Axis { step: y_step, rest: y_rest }];
    Flat { outcome: Outcome { number, pieces, bytes }, lands, axes }
}

// Each pointer comes with the length of its own slice; what is written to is lent alone.
impl Desk for Library {
    fn answer(&self, first: &[i32], second: &[i32], room: &mut [u8]) -> Outcome {
        let (one, two) = (first.as_ptr(), second.as_ptr());
        let (out, size) = (room.as_mut_ptr(), room.len());
        outcome(|to| unsafe { (self.answer)(to, one, first.len(), two, second.len(), out, size) })
    }

    fn judge(&self, list: &[i32]) -> u8 {
        let judge = self.judge.expect("a library that judges");
        unsafe { judge(list.as_ptr(), list.len()) }
    }

    fn sight(&self, list: &[i32], cells: &mut [u8]) -> bool {
        unsafe { (self.sight)(list.as_ptr(), list.len(), cells.as_mut_ptr(), cells.len()) }
    }

    fn cut(&self, n: usize, first: &[u8], second: &[u8], room: &mut [u8]) -> Outcome {
        let (one, two) = (first.as_ptr(), second.as_ptr());
        let (out, size) = (room.as_mut_ptr(), room.len());
        outcome(|to| unsafe { (self.cut)(to, n, one, first.len(), two, second.len(), out, size) })
    }

    fn carry(&self, first: &[i32], second: &[i32], mark: Mark, room: &mut [u8]) -> Flat {
        let carry = self.carry.expect("a library that carries");
        let (one, two) = (first.as_ptr(), second.as_ptr());
        let (out, size) = (room.as_mut_ptr(), room.len());
        let Mark { x, y } = mark;
        carried(|to| unsafe { carry(to, one, first.len(), two, second.len(), x, y, out, size) })
    }

    fn check(&self, first: &[i32], second: &[i32], list: &[u8]) -> Verdict {
        let check = self.check.expect("a library that checks");
        let (one, two, bytes) = (first.as_ptr(), second.as_ptr(), list.as_ptr());
        let CVerdict { number, drawing, place } =
            unsafe { check(one, first.len(), two, second.len(), bytes, list.len()) };
        Verdict { number, drawing, place }
    }
}
