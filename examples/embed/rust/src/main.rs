//! Verifies an image and runs it, as `x10p run IMAGE` does: `BURJEEG_LIB=DIR/lib cargo run -- IMAGE`.
use std::io::Write;

#[repr(C)]
#[derive(Default)]
struct Fault {
    kind: u32,
    function: u16,
    pc: u16,
    at: u64,
}

extern "C" {
    fn burjeeg_run(
        image: *const u8,
        length: usize,
        places: u16,
        limit: u64,
        buffer: *mut u8,
        room: usize,
        needed: *mut usize,
        fault: *mut Fault,
    ) -> u32;
    fn burjeeg_fault_line(fault: *const Fault, buffer: *mut u8, room: usize, needed: *mut usize) -> u32;
}

const EVENTS: u64 = 1_000_000;
const SMALL: u32 = 6;

/// What a call writes that takes a buffer, its room and where to tell how much is needed; and its status.
fn filled(call: impl Fn(*mut u8, usize, *mut usize) -> u32) -> (u32, Vec<u8>) {
    let mut buffer = vec![0; 256];
    loop {
        let mut needed = 0;
        let status = call(buffer.as_mut_ptr(), buffer.len(), &mut needed);
        buffer.resize(needed, 0);
        if status != SMALL {
            return (status, buffer);
        }
    }
}

/// Runs an image: the status, the lines, and the line of the fault if there is one.
fn run(image: &[u8]) -> (u32, Vec<u8>, Vec<u8>) {
    let fault = std::cell::UnsafeCell::new(Fault::default());
    let (status, lines) = filled(|buffer, room, needed| unsafe {
        burjeeg_run(image.as_ptr(), image.len(), 0, EVENTS, buffer, room, needed, fault.get())
    });
    if status == 0 {
        return (status, lines, Vec::new());
    }
    let (_, told) = filled(|buffer, room, needed| unsafe { burjeeg_fault_line(fault.get(), buffer, room, needed) });
    (status, lines, told)
}

fn main() -> std::io::Result<()> {
    let name = std::env::args().nth(1).expect("give the file of an image");
    let image = std::fs::read(name)?;
    let (status, lines, told) = run(&image);
    std::io::stdout().write_all(&lines)?;
    std::io::stderr().write_all(&told)?;
    std::process::exit(status as i32)
}
