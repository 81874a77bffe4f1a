//! The proved code, as a text for the assembler, and the memory that it asks for, which is the C
//! library's.
use std::{arch::global_asm, ffi::c_void, ptr::NonNull};

/// Takes the text of the proved code for a target.
macro_rules! text {
    ($target:meta, $file:literal, $($option:ident),+) => {
        #[cfg($target)]
        global_asm!(include_str!(concat!("../../assembly/", $file)), options($($option),+));
    };
}

text!(all(target_os = "linux", target_arch = "x86_64"), "x86_64.s", att_syntax, raw);
text!(all(target_os = "linux", target_arch = "aarch64"), "aarch64.s", raw);
text!(target_os = "windows", "x86_64_windows.s", att_syntax, raw);
text!(all(target_os = "macos", target_arch = "x86_64"), "x86_64_macos.s", att_syntax, raw);
text!(all(target_os = "macos", target_arch = "aarch64"), "aarch64_macos.s", raw);

/// Names a function for the code above. No other crate sees the name.
macro_rules! name {
    ($name:literal, $function:ident) => {
        #[cfg(target_arch = "x86_64")]
        name!($name, $function, "jmp {function}");
        #[cfg(target_arch = "aarch64")]
        name!($name, $function, "b {function}");
    };
    ($name:literal, $function:ident, $jump:literal) => {
        #[cfg(target_os = "linux")]
        global_asm!(
            concat!(".section .text.", $name, ", \"ax\", %progbits"),
            ".p2align 4",
            concat!(".globl ", $name),
            concat!(".hidden ", $name),
            concat!(".type ", $name, ", %function"),
            concat!($name, ":"),
            ".cfi_startproc",
            $jump,
            ".cfi_endproc",
            concat!(".size ", $name, ", . - ", $name),
            ".text",
            function = sym $function
        );
        #[cfg(target_os = "windows")]
        global_asm!(
            concat!(".section .text$", $name, ", \"xr\""),
            ".p2align 4",
            concat!(".globl ", $name),
            concat!($name, ":"),
            $jump,
            ".text",
            function = sym $function
        );
        #[cfg(target_os = "macos")]
        global_asm!(
            ".section __TEXT,__text,regular,pure_instructions",
            ".p2align 4",
            concat!(".globl _", $name),
            concat!(".private_extern _", $name),
            concat!("_", $name, ":"),
            $jump,
            function = sym $function
        );
    };
}

name!("kdr_0_1_0_alloc", alloc);
name!("kdr_0_1_0_realloc", realloc);
name!("kdr_0_1_0_dealloc", dealloc);

mod libc {
    use super::c_void;
    unsafe extern "C" {
        pub fn malloc(size: usize) -> *mut c_void;
        pub fn realloc(at: *mut c_void, size: usize) -> *mut c_void;
        pub fn free(at: *mut c_void);
    }
}

/// Whether there was memory, and where. The proofs count on an address that isn't null, also if
/// there was none.
#[repr(C)]
struct Got {
    is_some: usize,
    at: NonNull<c_void>,
}

fn got(at: *mut c_void) -> Got {
    Got { is_some: usize::from(!at.is_null()), at: NonNull::new(at).unwrap_or(NonNull::dangling()) }
}

/// The functions by the convention of the proved code, which is one on x86-64. A size is a multiple
/// of its alignment. If it is 0, they ask for more, since such a block has an address too.
macro_rules! functions {
    ($convention:literal) => {
        // SAFETY: the proved code asks for alignments that `malloc` keeps, and hands back each block
        // once, which it had from these functions.
        unsafe extern $convention fn alloc(size: usize, align: usize) -> Got {
            got(unsafe { libc::malloc(size.max(align)) })
        }

        unsafe extern $convention fn realloc(
            at: *mut c_void,
            _old: usize,
            size: usize,
            align: usize,
        ) -> Got {
            got(unsafe { libc::realloc(at, size.max(align)) })
        }

        unsafe extern $convention fn dealloc(at: *mut c_void) {
            unsafe { libc::free(at) }
        }
    };
}

#[cfg(target_arch = "x86_64")]
functions!("sysv64");
#[cfg(target_arch = "aarch64")]
functions!("C");
