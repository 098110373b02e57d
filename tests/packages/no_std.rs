//! A program over the crate `ipxr` that has no standard library of Rust: it routes a packet, and ends with 0 if that goes out.
#![no_std]
#![no_main]

use core::alloc::{GlobalAlloc, Layout};
use core::ffi::{c_int, c_void};
use ipxr::{packets, Address, Node, Outcome, Port, Router};

#[link(name = "c")]
extern "C" {
    fn malloc(size: usize) -> *mut c_void;
    fn free(block: *mut c_void);
    fn abort() -> !;
}

/// The allocator of C, which serves all alignments that are asked for here.
struct OfC;

// SAFETY: malloc's blocks are aligned for any number, and freed once.
unsafe impl GlobalAlloc for OfC {
    unsafe fn alloc(&self, layout: Layout) -> *mut u8 {
        malloc(layout.size()).cast()
    }

    unsafe fn dealloc(&self, block: *mut u8, _layout: Layout) {
        free(block.cast())
    }
}

#[global_allocator]
static MEMORY: OfC = OfC;

#[panic_handler]
fn panic(_why: &core::panic::PanicInfo) -> ! {
    unsafe { abort() }
}

fn goes_out() -> Result<bool, ipxr::Fault> {
    let mut router = Router::new(&[Port::new(0x10, Node([0, 0, 0, 0, 0, 1])), Port::new(0x20, Node([0, 0, 0, 0, 0, 2]))])?;
    router.start()?;
    router.clear();
    let (from, to) = (Address::new(0x10, [0, 0, 0, 0, 0, 0xAA], 0x4003), Address::new(0x20, [0, 0, 0, 0, 0, 0xCC], 0x4003));
    let outcome = router.packet(0, &packets::write_packet(&from, &to, 0, 0, b"hello")?)?;
    let sent = router.take_sent()?;
    Ok(outcome == Outcome::FORWARDED && sent.len() == 1 && sent[0].port == 1 && sent[0].node == to.node)
}

#[no_mangle]
extern "C" fn main() -> c_int {
    c_int::from(goes_out() != Ok(true))
}

/// What unwinding would ask for, which the toolchain's `alloc` names: nothing unwinds here.
#[no_mangle]
extern "C" fn rust_eh_personality() {}
