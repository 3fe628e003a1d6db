//! Debian's libvterm with its own screen, fed the same work as ANSI.

use std::ffi::c_void;

#[link(name = "vterm")]
extern "C" {
    fn vterm_new(rows: i32, columns: i32) -> *mut c_void;
    fn vterm_set_utf8(terminal: *mut c_void, on: i32);
    fn vterm_obtain_screen(terminal: *mut c_void) -> *mut c_void;
    fn vterm_screen_reset(screen: *mut c_void, hard: i32);
    fn vterm_input_write(terminal: *mut c_void, bytes: *const u8, len: usize) -> usize;
}

pub struct Terminal(*mut c_void);

impl Terminal {
    pub fn new() -> Terminal {
        unsafe {
            let terminal = vterm_new(5, 16);
            vterm_set_utf8(terminal, 0);
            vterm_screen_reset(vterm_obtain_screen(terminal), 1);
            Terminal(terminal)
        }
    }

    pub fn run(&mut self, bytes: &[u8]) -> u64 {
        unsafe { vterm_input_write(self.0, bytes.as_ptr(), bytes.len()) as u64 }
    }
}
