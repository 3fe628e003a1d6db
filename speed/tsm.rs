//! Debian's libtsm with its own screen, fed the same work as ANSI.

use std::ffi::c_void;
use std::ptr::null_mut;

type Write = extern "C" fn(*mut c_void, *const u8, usize, *mut c_void);

#[link(name = "tsm")]
extern "C" {
    fn tsm_screen_new(out: *mut *mut c_void, log: *mut c_void, data: *mut c_void) -> i32;
    fn tsm_screen_resize(screen: *mut c_void, columns: u32, rows: u32) -> i32;
    fn tsm_vte_new(out: *mut *mut c_void, screen: *mut c_void, write: Write, data: *mut c_void, log: *mut c_void, log_data: *mut c_void) -> i32;
    fn tsm_vte_input(terminal: *mut c_void, bytes: *const u8, len: usize);
}

extern "C" fn dropped(_terminal: *mut c_void, _bytes: *const u8, _len: usize, _data: *mut c_void) {}

pub struct Terminal(*mut c_void);

impl Terminal {
    pub fn new() -> Terminal {
        let (mut screen, mut terminal) = (null_mut(), null_mut());
        unsafe {
            assert_eq!(tsm_screen_new(&mut screen, null_mut(), null_mut()), 0);
            assert_eq!(tsm_screen_resize(screen, 16, 5), 0);
            assert_eq!(tsm_vte_new(&mut terminal, screen, dropped, null_mut(), null_mut(), null_mut()), 0);
        }
        Terminal(terminal)
    }

    pub fn run(&mut self, bytes: &[u8]) -> u64 {
        unsafe { tsm_vte_input(self.0, bytes.as_ptr(), bytes.len()) };
        bytes.len() as u64
    }
}
