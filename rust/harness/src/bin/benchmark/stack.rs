//! How much stack a call uses: it runs on a stack of known bytes, and those that changed are counted.

use crate::works::{Inputs, Side, WORKS};
use std::arch::asm;

const SIZE: usize = 1 << 16;

const FRESH: u8 = 0x5C;

/// The most stack that any case of each work uses, the work's own buffers included: by the library,
/// and by the published Rust.
pub fn depths(inputs: &Inputs) -> Vec<(&'static str, usize, Option<usize>)> {
    WORKS
        .iter()
        .map(|work| {
            let of = |side: Side| depth(&mut || assert_ne!(side(inputs).count, 0));
            (work.name, of(work.ours), work.theirs.map(of))
        })
        .collect()
}

/// How many bytes of stack a call uses, all that it calls included.
fn depth(mut call: &mut dyn FnMut()) -> usize {
    let mut stack = vec![FRESH; SIZE];
    let top = stack.as_mut_ptr_range().end;
    let top = top.wrapping_sub(top.addr() % 16);
    // SAFETY: the stack is large enough for what is measured and aligned; `rsp` is put back, and the
    // call does not unwind.
    unsafe {
        asm!(
            "mov r12, rsp",
            "mov rsp, {top}",
            "call {trampoline}",
            "mov rsp, r12",
            top = in(reg) top,
            trampoline = sym trampoline,
            in("rdi") &raw mut call,
            out("r12") _,
            clobber_abi("C"),
        );
    }
    stack.iter().skip_while(|byte| **byte == FRESH).count()
}

extern "C" fn trampoline(call: &mut &mut dyn FnMut()) {
    call();
}

#[cfg(test)]
mod tests {
    use super::*;
    use crate::works::MERGED_FROM_CALLS;
    use harness::pages::LONGEST;

    /// 6 KB for all lists of an image, 4 KB for building and other reading, 2 KB for merging, 1 KB for what drives the chip, each
    /// with the caller's buffers; 1 KB for a page beside the caller's room for it.
    #[test]
    fn stack_stays_within_its_bounds() {
        let depths = depths(&Inputs::new(400));
        assert_eq!(depths.len(), WORKS.len());
        for (name, ours, _) in depths {
            let patterns = ["images", "answers", "one item", "reading"];
            let bound = match name {
                "reading all lists" => 6144,
                MERGED_FROM_CALLS => 4096,
                "merged images" => 2048,
                _ if name.starts_with("page") => 1024 + LONGEST,
                _ if patterns.iter().any(|it| name.starts_with(it)) => 4096,
                _ => 1024,
            };
            assert!((64..=bound).contains(&ours), "{name}: {ours} bytes");
        }
    }
}
