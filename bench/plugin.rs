//! A plugin of qemu that counts the instructions of the program that qemu runs, and prints their
//! number when it ends. For machines that are not x86-64; `count` compiles it. It speaks version 1 of
//! qemu's interface for plugins, that of qemu 4.2 to 8.2.

use std::ffi::{c_char, c_int, c_uint, c_void, CString};
use std::sync::atomic::{AtomicU64, Ordering};

type Id = u64;
type Block = c_void;

#[allow(non_upper_case_globals)]
#[no_mangle]
pub static qemu_plugin_version: c_int = 1;

static COUNTED: AtomicU64 = AtomicU64::new(0);

extern "C" {
    fn qemu_plugin_register_vcpu_tb_trans_cb(id: Id, translated: extern "C" fn(Id, *mut Block));
    fn qemu_plugin_tb_n_insns(block: *const Block) -> usize;
    fn qemu_plugin_register_vcpu_tb_exec_inline(block: *mut Block, add: c_uint, to: *const AtomicU64, number: u64);
    fn qemu_plugin_register_atexit_cb(id: Id, ended: extern "C" fn(Id, *mut c_void), data: *mut c_void);
    fn qemu_plugin_outs(text: *const c_char);
}

extern "C" fn translated(_id: Id, block: *mut Block) {
    const ADD: c_uint = 0;
    unsafe { qemu_plugin_register_vcpu_tb_exec_inline(block, ADD, &COUNTED, qemu_plugin_tb_n_insns(block) as u64) }
}

extern "C" fn ended(_id: Id, _data: *mut c_void) {
    let text = format!("Collected : {}\n", COUNTED.load(Ordering::Relaxed));
    unsafe { qemu_plugin_outs(CString::new(text).unwrap_or_default().as_ptr()) }
}

#[no_mangle]
pub extern "C" fn qemu_plugin_install(id: Id, _info: *const c_void, _argc: c_int, _argv: *mut *mut c_char) -> c_int {
    unsafe {
        qemu_plugin_register_vcpu_tb_trans_cb(id, translated);
        qemu_plugin_register_atexit_cb(id, ended, std::ptr::null_mut());
    }
    0
}
